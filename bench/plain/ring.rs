//! The monitor of `texts/buffer.cp` and `texts/buffers.cp`: a ring of slots, with queues of one process each.

use crate::assembly::{member, set_member};
use crate::program::{Index, Operand, Operation, Operator, Root, Spot, Term};

/// How many queues senders have, and receivers.
const EACH: i32 = 8;

/// A ring. Its slots are the first words of the monitor.
#[derive(Clone, Copy)]
pub struct Ring {
    /// The words of a slot.
    pub size: u32,
    /// Where `head` is among the words of the monitor. The other variables follow it.
    pub head: u32,
}

/// Those who wait in the queues of a ring, by the places of their variables.
#[derive(Clone, Copy)]
pub struct Waiting {
    pub queues: u32,
    pub first: u32,
    pub count: u32,
}

/// `array[index]`, where `array` has so many elements from 0.
fn element(array: u32, count: i32, size: u32, index: Term) -> Spot {
    let index = Index {
        low: 0,
        high: count - 1,
        size,
        plus: 0,
        value: index,
    };
    Spot {
        root: Root::Member(array),
        indices: vec![index],
    }
}

/// `n := (n + 1) mod many`
pub fn count_up(n: u32, many: i32, next: u32) -> Operation {
    let value = member(n)
        .then(Operator::Add, 1)
        .then(Operator::Modulo, many);
    set_member(n, value, next)
}

/// `(a + b) mod many`
pub fn sum_modulo(a: u32, b: u32, many: i32) -> Term {
    let sum = member(a).then(Operator::Add, Operand::Member(b));
    sum.then(Operator::Modulo, many)
}

impl Ring {
    pub fn length(self) -> u32 {
        self.head + 1
    }

    pub fn senders(self) -> Waiting {
        Waiting {
            queues: self.head + 2,
            first: self.head + 18,
            count: self.head + 20,
        }
    }

    pub fn receivers(self) -> Waiting {
        Waiting {
            queues: self.head + 10,
            first: self.head + 19,
            count: self.head + 21,
        }
    }

    fn next(self) -> u32 {
        self.head + 22
    }

    /// The first of the counts that the monitor keeps.
    pub fn counts(self) -> u32 {
        self.head + 23
    }

    /// The slot at an index, of four.
    pub fn slot(self, index: Term) -> Spot {
        element(0, 4, self.size, index)
    }

    /// The end of both routines, from place `from` to `from + 5`: `if waiting > 0` and what follows it.
    pub fn resume(self, waiting: Waiting, from: u32) -> Vec<Operation> {
        let next = self.next();
        let after_next = member(next)
            .then(Operator::Add, 1)
            .then(Operator::Modulo, EACH);
        vec![
            Operation::Return { function: false },
            Operation::Continue {
                queue: element(waiting.queues, EACH, 1, member(next)),
            },
            set_member(
                waiting.count,
                member(waiting.count).then(Operator::Subtract, 1),
                from + 1,
            ),
            set_member(waiting.first, after_next, from + 2),
            set_member(next, member(waiting.first), from + 3),
            Operation::Test {
                value: member(waiting.count).then(Operator::Greater, 0),
                yes: from + 4,
                no: from,
            },
        ]
    }

    /// The beginning of both routines, to place `from + 3`: a process waits if the length is this, and `waits` counts it.
    pub fn wait(self, waiting: Waiting, length: i32, waits: u32, from: u32) -> Vec<Operation> {
        let last = member(waiting.first).then(Operator::Add, Operand::Member(waiting.count));
        let index = last
            .then(Operator::Subtract, 1)
            .then(Operator::Modulo, EACH);
        vec![
            Operation::Delay {
                queue: element(waiting.queues, EACH, 1, index),
                next: from - 1,
            },
            set_member(
                waiting.count,
                member(waiting.count).then(Operator::Add, 1),
                from,
            ),
            count_up(waits, 30000, from + 1),
            Operation::Test {
                value: member(self.length()).then(Operator::Equal, length),
                yes: from + 2,
                no: from - 1,
            },
        ]
    }
}
