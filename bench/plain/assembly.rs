//! Programs by hand. Operations stand in the order in which cpm emits them: each unit from its end.

use crate::process::UNSET;
use crate::program::{
    Application, Argument, Bounds, Call, Counting, Fill, Operand, Operation, Operator, Program,
    Root, Spot, Start, Target, Term, Unit,
};

pub const INTEGER: Bounds = Bounds {
    low: -32768,
    high: 32767,
};

impl From<Operand> for Term {
    fn from(first: Operand) -> Term {
        Term {
            first,
            rest: Vec::new(),
        }
    }
}

impl From<i32> for Operand {
    fn from(n: i32) -> Operand {
        Operand::Number(n)
    }
}

impl From<Term> for Operand {
    fn from(term: Term) -> Operand {
        Operand::Nested(Box::new(term))
    }
}

impl From<Spot> for Operand {
    fn from(spot: Spot) -> Operand {
        Operand::Item(Box::new(spot))
    }
}

impl Term {
    /// An operator between it and a right operand.
    pub fn then(mut self, operator: Operator, right: impl Into<Operand>) -> Term {
        self.rest.push(match right.into() {
            Operand::Number(n) => Application::WithNumber(operator, n),
            operand => Application::WithOperand(operator, operand),
        });
        self
    }
}

pub fn term(first: impl Into<Operand>) -> Term {
    first.into().into()
}

pub fn local(at: u32) -> Term {
    term(Operand::Local(at))
}

pub fn member(at: u32) -> Term {
    term(Operand::Member(at))
}

pub fn made(temp: u32) -> Term {
    term(Operand::Made(temp))
}

pub fn negative(n: i32) -> Term {
    term(Operand::Negative(Box::new(term(n))))
}

pub fn variable(root: Root) -> Spot {
    Spot {
        root,
        indices: Vec::new(),
    }
}

pub fn set(to: Spot, value: Term, next: u32) -> Operation {
    Operation::Set {
        to,
        bounds: INTEGER,
        value,
        next,
    }
}

pub fn set_local(at: u32, value: Term, next: u32) -> Operation {
    set(variable(Root::Local(at)), value, next)
}

pub fn set_member(at: u32, value: Term, next: u32) -> Operation {
    set(variable(Root::Member(at)), value, next)
}

pub fn set_result(value: Term, next: u32) -> Operation {
    Operation::SetResult {
        bounds: INTEGER,
        value,
        next,
    }
}

pub fn value(at: u32, term: Term) -> Argument {
    Argument::Value {
        at,
        bounds: INTEGER,
        term,
    }
}

pub fn call(unit: u32, target: Target, arguments: Vec<Argument>, words: u32, temps: u32) -> Call {
    Call {
        unit,
        target,
        arguments,
        words,
        temps,
    }
}

pub fn counting(variable: Root, temp: u32, body: u32, next: u32) -> Counting {
    Counting {
        variable,
        bounds: INTEGER,
        temp,
        body,
        next,
    }
}

pub fn start_for(counting: Counting, first: i32, last: i32) -> Operation {
    Operation::For {
        counting,
        first: term(first),
        last: term(last),
    }
}

pub fn unit(start: u32, starts: Vec<Fill>) -> Unit {
    Unit { start, starts }
}

/// The result of a function isn't set.
pub fn unset() -> Vec<Fill> {
    vec![Fill {
        at: 0,
        count: 1,
        value: UNSET,
    }]
}

/// So many variables of a routine start with 0.
pub fn zeros(at: u32, count: u32) -> Vec<Fill> {
    vec![Fill {
        at,
        count,
        value: 0,
    }]
}

/// The number after the one in a variable, as `sorting.cp` and `records.cp` make numbers.
pub fn next_seed(seed: u32) -> Term {
    member(seed)
        .then(Operator::Multiply, 17)
        .then(Operator::Add, 59)
        .then(Operator::Modulo, 1009)
}

/// The start of a process without parameters, at a place. Its variables fill its own words from the second one on, and it
/// calls one routine at a time, which takes the rest of the words.
pub fn start_at(place: u32, own: u32, words: usize) -> Start {
    Start {
        place,
        own,
        words,
        temps: 2,
        frames: 1,
        parameters: vec![],
        variables: vec![1..own as usize],
    }
}

/// The program of one process.
pub fn alone(operations: Vec<Operation>, units: Vec<Unit>, start: Start) -> Program {
    Program {
        operations,
        units,
        processes: vec![start],
        monitors: vec![],
        shared: 0,
        shared_variables: vec![],
    }
}

/// The initial process, which has ended, and then these.
pub fn after_initial(processes: impl Iterator<Item = Start>) -> Vec<Start> {
    let initial = Start {
        place: u32::MAX,
        own: 0,
        words: 0,
        temps: 0,
        frames: 0,
        parameters: vec![],
        variables: vec![],
    };
    [initial].into_iter().chain(processes).collect()
}
