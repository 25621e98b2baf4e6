//! Programs: terms and spots, operations, and units of code.

use std::ops::Range;

/// A fault has as many bits as a word, so that either comes back in registers.
#[derive(Clone, Copy, PartialEq, Eq)]
#[repr(i32)]
pub enum Fault {
    Range,
    Index,
    Overflow,
    DivisionByZero,
    NotInitialised,
    InitialisedTwice,
    NoLabel,
    NoResult,
    QueueTaken,
    /// No fault: the step is the kernel's, and nothing has changed.
    KernelStep,
}

#[derive(Clone, Copy)]
pub enum Operator {
    Add,
    Subtract,
    Multiply,
    Divide,
    Modulo,
    Equal,
    Greater,
    AtLeast,
}

/// Where a variable begins.
#[derive(Clone, Copy)]
pub enum Root {
    /// So many words from the first of the running activation.
    Local(u32),
    /// So many words from the first of the running component.
    Member(u32),
    /// Where the reference points that this word of the activation holds.
    Through(u32),
}

pub enum Operand {
    Number(i32),
    Local(u32),
    Member(u32),
    /// The value of a call, in the temp of this number.
    Made(u32),
    Item(Box<Spot>),
    Nested(Box<Term>),
    Negative(Box<Term>),
}

/// An operator and its right operand.
pub enum Application {
    WithNumber(Operator, i32),
    WithOperand(Operator, Operand),
}

/// A chain of operands, which groups to the left.
pub struct Term {
    pub first: Operand,
    pub rest: Vec<Application>,
}

/// An index, with the bounds of its array, the words of an element, and how far within the element the part lies.
pub struct Index {
    pub low: i32,
    pub high: i32,
    pub size: u32,
    pub plus: u32,
    pub value: Term,
}

/// The place of a variable, or of a part of one.
pub struct Spot {
    pub root: Root,
    pub indices: Vec<Index>,
}

/// What is passed to the parameter that lies so many words from the first.
pub enum Argument {
    Value { at: u32, bounds: Bounds, term: Term },
    Copy { at: u32, size: u32, from: Spot },
    Reference { at: u32, to: Spot },
}

#[derive(Clone, Copy)]
pub enum Target {
    Own,
    /// A class that lies so many words from the first of the running component.
    Class(u32),
    /// The monitor whose number this word of the running component holds.
    MonitorRight(u32),
}

/// A call of a unit. The new activation lies `words` words after the caller's first, and its temps `temps` after the caller's.
pub struct Call {
    pub unit: u32,
    pub target: Target,
    pub arguments: Vec<Argument>,
    pub words: u32,
    pub temps: u32,
}

/// What may be assigned.
#[derive(Clone, Copy)]
pub struct Bounds {
    pub low: i32,
    pub high: i32,
}

/// Where a `case` leads: the place of each number from the lowest label on.
pub struct Table {
    pub low: i32,
    pub places: Vec<Option<u32>>,
}

/// A `for` that counts up. Its counter is in the temp of this number, and its last value in the one after it.
#[derive(Clone, Copy)]
pub struct Counting {
    pub variable: Root,
    pub bounds: Bounds,
    pub temp: u32,
    pub body: u32,
    pub next: u32,
}

/// One step's work, and the place of the operation to which it leads.
pub enum Operation {
    Set {
        to: Spot,
        bounds: Bounds,
        value: Term,
        next: u32,
    },
    SetResult {
        bounds: Bounds,
        value: Term,
        next: u32,
    },
    CopyWords {
        to: Spot,
        from: Spot,
        size: u32,
        next: u32,
    },
    Test {
        value: Term,
        yes: u32,
        no: u32,
    },
    Case {
        value: Term,
        table: Table,
    },
    For {
        counting: Counting,
        first: Term,
        last: Term,
    },
    ForNext(Counting),
    Cycle {
        body: u32,
    },
    Procedure {
        call: Call,
        next: u32,
    },
    /// Puts the value of the call into a temp.
    Function {
        call: Call,
        into: u32,
        next: u32,
    },
    Return {
        function: bool,
    },
    InitClass {
        call: Call,
        next: u32,
    },
    Delay {
        queue: Spot,
        next: u32,
    },
    /// Resumes who waits in the queue, and returns from a procedure of a monitor.
    Continue {
        queue: Spot,
    },
    EndBody,
    End,
}

/// So many words that start with one value.
#[derive(Clone, Copy)]
pub struct Fill {
    pub at: u32,
    pub count: u32,
    pub value: i32,
}

/// The code of a routine or a body: the place of its first operation, and how the words of an activation start.
pub struct Unit {
    pub start: u32,
    pub starts: Vec<Fill>,
}

/// What a process begins with.
pub struct Start {
    /// The place where it begins.
    pub place: u32,
    /// The words of the process itself.
    pub own: u32,
    /// The words of the process and of all activations that there can be at once, their temps and their frames.
    pub words: usize,
    pub temps: usize,
    pub frames: usize,
    /// The parameters, from the first word on.
    pub parameters: Vec<i32>,
    /// Which of the words are variables.
    pub variables: Vec<Range<usize>>,
}

/// The program of some processes and monitors, from the second round on, in which all are initialised.
pub struct Program {
    pub operations: Vec<Operation>,
    pub units: Vec<Unit>,
    pub processes: Vec<Start>,
    /// Where the words of each monitor begin among those that are shared.
    pub monitors: Vec<u32>,
    /// The number of shared words, and which of them are variables.
    pub shared: usize,
    pub shared_variables: Vec<Range<usize>>,
}
