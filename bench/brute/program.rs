//! Lowered programs: each task of a continuation is a node, and each name an offset.
//!
//! A node names the node after it, so the node of its next task determines what a process has
//! left to do in the running routine. The value of a call that was made is an answer. The answers
//! of a statement are on top of the process's words until the statement is done.

pub type NodeId = u32;

#[derive(Clone, Copy, PartialEq, Eq)]
pub struct Bounds {
    pub low: i32,
    pub high: i32,
}

/// A word of a component at the start. Marks of classes and rights aren't reported.
#[derive(Clone, Copy)]
pub struct Word {
    pub value: i32,
    pub is_reported: bool,
}

#[derive(Clone, Copy)]
pub enum Root {
    /// So many words after the first of the running activation.
    Local(u32),
    /// So many words after the first of the running component.
    Member(u32),
}

pub struct Index {
    pub value: Term,
    pub bounds: Bounds,
    /// The words of an element.
    pub size: u32,
}

/// The place of a variable or of a part of one.
pub struct Spot {
    pub root: Root,
    /// Whether the root holds the address of the variable.
    pub is_reference: bool,
    pub offset: u32,
    pub indices: Vec<Index>,
}

#[derive(Clone, Copy)]
pub enum Operator {
    Equal,
    Unequal,
    Less,
    Greater,
    AtMost,
    AtLeast,
    Add,
    Subtract,
    Multiply,
    Divide,
    Modulo,
    And,
    Or,
}

pub enum Term {
    Constant(i32),
    /// The answer of this number, counted from the first of the statement.
    Answer(u32),
    Variable(Spot),
    Not(Box<Term>),
    Negative(Box<Term>),
    Binary(Operator, Box<Term>, Box<Term>),
    Abs(Box<Term>),
    /// `succ` or `pred`, within the base type.
    Shift(Box<Term>, i32, Bounds),
    Chr(Box<Term>),
    Empty(Spot),
}

pub enum Argument {
    Value(Term, Bounds),
    Copy(Spot, u32),
    Reference(Spot),
    /// A right to the monitor of this number.
    Monitor(u32),
    /// A right to the class that is a member of the running component.
    Class(u32),
    /// A right that a member of the running component holds.
    Right(u32),
}

/// The component that is called. Offsets are those of a member of the running component.
pub enum Target {
    Own,
    ClassVariable(u32),
    ClassRight(u32),
    Monitor(u32),
    MonitorRight(u32),
}

/// The component that is initialised.
pub enum Initialised {
    Class { offset: u32, body: NodeId },
    Monitor { number: u32, body: NodeId },
    Process { number: u32 },
}

pub enum Action {
    /// A simple variable, its bounds, and the value that is assigned.
    Assign(Spot, Bounds, Term),
    /// An array or a record, the one that is assigned to it, and its words.
    Copy(Spot, Spot, u32),
    Test {
        condition: Term,
        then: NodeId,
        otherwise: NodeId,
    },
    Case {
        selector: Term,
        arms: Vec<(Vec<i32>, NodeId)>,
    },
    For {
        counting: Counting,
        first: Term,
        last: Term,
    },
    ForNext(Counting),
    Cycle {
        body: NodeId,
    },
    Call {
        target: Target,
        unit: u32,
        arguments: Vec<Argument>,
    },
    Init(Initialised, Vec<Argument>),
    Display(Term),
    Accept(Spot, Bounds),
    Delay(Spot),
    Continue(Spot),
    /// The end of a routine, and the place of a function's result in the activation.
    EndCall(Option<u32>),
    EndBody,
    EndProcess,
}

/// What both tests of a `for` need.
pub struct Counting {
    pub variable: Spot,
    pub bounds: Bounds,
    pub is_down: bool,
    pub body: NodeId,
}

pub struct Node {
    pub action: Action,
    /// The number of answers of its statement when it is next.
    pub answers: u32,
    /// How many of them it uses up.
    pub operands: u32,
    pub next: NodeId,
}

/// A routine: its first node, and the words of a new activation after the parameters.
pub struct Unit {
    pub start: NodeId,
    pub starts: Vec<i32>,
    /// The place of a function's result in the activation.
    pub result: Option<u32>,
}

pub struct Process {
    pub start: NodeId,
    pub words: Vec<Word>,
    pub input: Vec<u8>,
}

/// Processes and monitors are numbered from 1: these are lists from number 1 on.
pub struct Program {
    pub nodes: Vec<Node>,
    pub units: Vec<Unit>,
    pub processes: Vec<Process>,
    /// The first word of each monitor.
    pub monitors: Vec<u32>,
    /// The words of all monitors at the start.
    pub shared: Vec<Word>,
}

impl Word {
    pub fn reported(value: i32) -> Word {
        Word {
            value,
            is_reported: true,
        }
    }

    pub fn hidden() -> Word {
        Word {
            value: 0,
            is_reported: false,
        }
    }
}

impl Node {
    /// Whether the step is a call of a monitor or `init` of one.
    pub fn is_late(&self) -> bool {
        matches!(
            self.action,
            Action::Call {
                target: Target::Monitor(_) | Target::MonitorRight(_),
                ..
            } | Action::Init(Initialised::Monitor { .. }, _)
        )
    }

    /// Whether the step is the kernel's wherever the process is.
    pub fn is_of_kernel(&self) -> bool {
        let starts_process = matches!(self.action, Action::Init(Initialised::Process { .. }, _));
        starts_process || self.is_late()
    }
}
