//! The values of terms, and the addresses of spots.

use crate::program::{Bounds, Index, Operator, Root, Spot, Term};
use crate::state::{Kernel, Process, SHARED};

/// The number of a fault.
pub type Fault = u8;

const RANGE: Fault = 1;
const INDEX: Fault = 2;
const OVERFLOW: Fault = 3;
const ZERO_DIVISOR: Fault = 4;

const INTEGERS: Bounds = Bounds {
    low: -32_768,
    high: 32_767,
};
const CHARACTERS: Bounds = Bounds { low: 0, high: 127 };

/// What a step of a process reads.
#[derive(Clone, Copy)]
pub struct Reading<'a> {
    process: &'a Process,
    kernel: &'a Kernel,
    /// The first answer of the statement among the words of the process.
    answers: usize,
}

impl Bounds {
    fn contains(self, n: i32) -> bool {
        (self.low..=self.high).contains(&n)
    }

    /// A value that is stored: fault 1 out of the range.
    pub fn check(self, n: i32) -> Result<i32, Fault> {
        if self.contains(n) {
            Ok(n)
        } else {
            Err(RANGE)
        }
    }
}

fn integer(n: i32) -> Result<i32, Fault> {
    if INTEGERS.contains(n) {
        Ok(n)
    } else {
        Err(OVERFLOW)
    }
}

fn divisor(n: i32) -> Result<i32, Fault> {
    if n == 0 {
        Err(ZERO_DIVISOR)
    } else {
        Ok(n)
    }
}

fn apply(operator: Operator, a: i32, b: i32) -> Result<i32, Fault> {
    let holds = match operator {
        Operator::Add => return integer(a + b),
        Operator::Subtract => return integer(a - b),
        Operator::Multiply => return integer(a * b),
        Operator::Divide => return integer(a / divisor(b)?),
        Operator::Modulo => return integer(a % divisor(b)?),
        Operator::And => a == 1 && b == 1,
        Operator::Or => a == 1 || b == 1,
        Operator::Equal => a == b,
        Operator::Unequal => a != b,
        Operator::Less => a < b,
        Operator::Greater => a > b,
        Operator::AtMost => a <= b,
        Operator::AtLeast => a >= b,
    };
    Ok(i32::from(holds))
}

impl<'a> Reading<'a> {
    /// The process and the kernel, while the statement has this many answers.
    pub fn new(process: &'a Process, kernel: &'a Kernel, answers: u32) -> Reading<'a> {
        Reading {
            process,
            kernel,
            answers: process.words.len() - answers as usize,
        }
    }

    pub fn word(self, address: u32) -> i32 {
        match address.checked_sub(SHARED) {
            Some(place) => self.kernel.words[place as usize],
            None => self.process.words[address as usize],
        }
    }

    /// A word of the running component.
    pub fn member(self, offset: u32) -> i32 {
        self.word(self.process.component + offset)
    }

    fn index(self, index: &Index) -> Result<u32, Fault> {
        let n = self.value(&index.value)?;
        if index.bounds.contains(n) {
            Ok((n - index.bounds.low) as u32 * index.size)
        } else {
            Err(INDEX)
        }
    }

    pub fn address(self, spot: &Spot) -> Result<u32, Fault> {
        let root = match spot.root {
            Root::Local(offset) => self.process.base + offset,
            Root::Member(offset) => self.process.component + offset,
        };
        let mut address = spot.offset;
        address += if spot.is_reference {
            self.word(root) as u32
        } else {
            root
        };
        for index in &spot.indices {
            address += self.index(index)?;
        }
        Ok(address)
    }

    pub fn value(self, term: &Term) -> Result<i32, Fault> {
        match term {
            Term::Constant(n) => Ok(*n),
            Term::Answer(number) => Ok(self.process.words[self.answers + *number as usize]),
            Term::Variable(spot) => Ok(self.word(self.address(spot)?)),
            Term::Not(operand) => Ok(i32::from(self.value(operand)? == 0)),
            Term::Negative(operand) => integer(-self.value(operand)?),
            Term::Binary(operator, a, b) => apply(*operator, self.value(a)?, self.value(b)?),
            Term::Abs(operand) => integer(self.value(operand)?.abs()),
            Term::Shift(operand, by, base) => base.check(self.value(operand)? + by),
            Term::Chr(operand) => CHARACTERS.check(self.value(operand)?),
            Term::Empty(queue) => Ok(i32::from(self.word(self.address(queue)?) == 0)),
        }
    }
}
