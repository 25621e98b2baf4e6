//! The values of terms, the places of spots, and where a `case` leads.

use crate::memory::{Reach, Shared};
use crate::program::{Application, Bounds, Fault, Index, Operand, Operator, Spot, Table, Term};

#[inline(always)]
fn in_range(n: i64) -> Result<i32, Fault> {
    if (-32768..=32767).contains(&n) {
        Ok(n as i32)
    } else {
        Err(Fault::Overflow)
    }
}

fn quotient(a: i32, b: i32) -> Result<i32, Fault> {
    match b {
        0 => Err(Fault::DivisionByZero),
        -1 => in_range(-i64::from(a)),
        _ => in_range(i64::from(a / b)),
    }
}

fn remainder(a: i32, b: i32) -> Result<i32, Fault> {
    match b {
        0 => Err(Fault::DivisionByZero),
        -1 => Ok(0),
        _ => in_range(i64::from(a % b)),
    }
}

impl Operator {
    #[inline(always)]
    fn apply(self, a: i32, b: i32) -> Result<i32, Fault> {
        match self {
            Operator::Add => in_range(i64::from(a) + i64::from(b)),
            Operator::Subtract => in_range(i64::from(a) - i64::from(b)),
            Operator::Multiply => in_range(i64::from(a) * i64::from(b)),
            Operator::Divide => quotient(a, b),
            Operator::Modulo => remainder(a, b),
            Operator::Equal => Ok(i32::from(a == b)),
            Operator::Greater => Ok(i32::from(a > b)),
            Operator::AtLeast => Ok(i32::from(a >= b)),
        }
    }
}

impl Operand {
    /// The value. Numbers and words are read here, since they are the most common.
    #[inline(always)]
    pub fn value<S: Shared>(&self, reach: Reach<'_, S>) -> Result<i32, Fault> {
        let memory = reach.memory;
        match self {
            Operand::Number(n) => Ok(*n),
            Operand::Local(at) => Ok(memory.word(memory.local(*at))),
            Operand::Member(at) => Ok(reach.word(memory.member(*at))),
            Operand::Made(temp) => Ok(memory.temp(memory.temp as usize + *temp as usize)),
            Operand::Item(spot) => spot.value(reach),
            Operand::Nested(term) => term.value(reach),
            Operand::Negative(term) => term.negative_value(reach),
        }
    }
}

impl Application {
    #[inline(always)]
    fn applied<S: Shared>(&self, left: i32, reach: Reach<'_, S>) -> Result<i32, Fault> {
        match self {
            Application::WithNumber(operator, number) => operator.apply(left, *number),
            Application::WithOperand(operator, operand) => {
                operator.apply(left, operand.value(reach)?)
            }
        }
    }
}

impl Term {
    pub fn value<S: Shared>(&self, reach: Reach<'_, S>) -> Result<i32, Fault> {
        self.value_here(reach)
    }

    /// The same value, for the operations that are most common.
    #[inline(always)]
    pub fn value_here<S: Shared>(&self, reach: Reach<'_, S>) -> Result<i32, Fault> {
        let mut n = self.first.value(reach)?;
        for application in &self.rest {
            n = application.applied(n, reach)?;
        }
        Ok(n)
    }

    fn negative_value<S: Shared>(&self, reach: Reach<'_, S>) -> Result<i32, Fault> {
        in_range(-i64::from(self.value(reach)?))
    }
}

impl Spot {
    /// What the place holds.
    pub fn value<S: Shared>(&self, reach: Reach<'_, S>) -> Result<i32, Fault> {
        Ok(reach.word(self.place(reach)?))
    }

    #[inline(always)]
    pub fn place<S: Shared>(&self, reach: Reach<'_, S>) -> Result<usize, Fault> {
        let from = reach.memory.root_place(self.root);
        if self.indices.is_empty() {
            return Ok(from);
        }
        place_of_element(from, &self.indices, reach)
    }
}

fn place_of_element<S: Shared>(
    from: usize,
    indices: &[Index],
    reach: Reach<'_, S>,
) -> Result<usize, Fault> {
    let mut at = from;
    for index in indices {
        let n = index.value.value_here(reach)?;
        if n < index.low || index.high < n {
            return Err(Fault::Index);
        }
        let distance = (i64::from(n) - i64::from(index.low)) as usize;
        at += distance * index.size as usize + index.plus as usize;
    }
    Ok(at)
}

impl Bounds {
    #[inline(always)]
    pub fn check(self, n: i32) -> Result<i32, Fault> {
        if self.low <= n && n <= self.high {
            Ok(n)
        } else {
            Err(Fault::Range)
        }
    }
}

impl Table {
    pub fn place(&self, n: i32) -> Option<u32> {
        let far = usize::try_from(i64::from(n) - i64::from(self.low)).ok()?;
        self.places.get(far).copied().flatten()
    }
}
