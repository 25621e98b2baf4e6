//! Expressions and their types.

use super::designators::Mode;
use super::environment::{BOOLEAN, CHAR, INTEGER};
use super::{Checker, Rule};
use crate::tree::{Expression, Operation, Operator};

impl<'t> Checker<'t> {
    /// The type of an expression, if nothing is broken in it.
    pub fn expression(&mut self, mode: Mode, e: &Expression<'t>) -> Option<usize> {
        match e {
            Expression::Number { .. } => Some(INTEGER),
            Expression::Character { .. } => Some(CHAR),
            Expression::Designated(d) => self.used(mode, d),
            Expression::Call(d, list) => self.call(mode, d, list),
            Expression::Parenthesized { inner, .. } => self.expression(Mode::Value, inner),
            Expression::Not { at, operand } => self.operand(BOOLEAN, *at, operand),
            Expression::Signed { at, operand, .. } => self.operand(INTEGER, *at, operand),
            Expression::Chain { first, rest } => {
                let left = self.expression(mode.of_first_operand(), first);
                rest.iter()
                    .fold(left, |left, operation| self.operation(left, operation))
            }
        }
    }

    /// C2: the operand of a sign or of `not` is of another base type.
    fn operand(&mut self, wanted: usize, at: u32, operand: &Expression<'t>) -> Option<usize> {
        let t = self.expression(Mode::Value, operand)?;
        let fits = self.is_base(wanted, t);
        self.unless(fits, Rule::C2, at).then_some(wanted)
    }

    /// C2: the operands don't fit the operator.
    fn operation(&mut self, left: Option<usize>, operation: &Operation<'t>) -> Option<usize> {
        let right = self.expression(Mode::Value, &operation.operand);
        let (left, right) = left.zip(right)?;
        let (fits, gives) = match operation.operator {
            Operator::Add
            | Operator::Subtract
            | Operator::Multiply
            | Operator::Divide
            | Operator::Modulo => (
                self.is_base(INTEGER, left) && self.is_base(INTEGER, right),
                INTEGER,
            ),
            Operator::And | Operator::Or => (
                self.is_base(BOOLEAN, left) && self.is_base(BOOLEAN, right),
                BOOLEAN,
            ),
            _ => (
                self.is_simple(left) && self.base(left) == self.base(right),
                BOOLEAN,
            ),
        };
        self.unless(fits, Rule::C2, operation.at).then_some(gives)
    }
}
