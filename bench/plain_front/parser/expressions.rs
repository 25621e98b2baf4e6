//! The parser's rules of expressions and designators.

use crate::parser::{Parser, Read};
use crate::token::Kind;
use crate::tree::{Designator, Expression, Index, Operation, Operator, Selector, Sign};

fn product_operator(kind: Kind) -> Option<Operator> {
    match kind {
        Kind::Star => Some(Operator::Multiply),
        Kind::Div => Some(Operator::Divide),
        Kind::Mod => Some(Operator::Modulo),
        Kind::Ampersand => Some(Operator::And),
        _ => None,
    }
}

fn sum_operator(kind: Kind) -> Option<Operator> {
    match kind {
        Kind::Plus => Some(Operator::Add),
        Kind::Minus => Some(Operator::Subtract),
        Kind::Or => Some(Operator::Or),
        _ => None,
    }
}

fn relation_operator(kind: Kind) -> Option<Operator> {
    match kind {
        Kind::Equal => Some(Operator::Equal),
        Kind::Unequal => Some(Operator::Unequal),
        Kind::Less => Some(Operator::Less),
        Kind::Greater => Some(Operator::Greater),
        Kind::AtMost => Some(Operator::AtMost),
        Kind::AtLeast => Some(Operator::AtLeast),
        _ => None,
    }
}

/// Joins operands with the operators between them, if there are any.
fn join<'t>(first: Expression<'t>, rest: Vec<Operation<'t>>) -> Expression<'t> {
    if rest.is_empty() {
        first
    } else {
        Expression::Chain {
            first: Box::new(first),
            rest,
        }
    }
}

impl<'t> Parser<'t> {
    fn chain(
        &mut self,
        operator_of: fn(Kind) -> Option<Operator>,
        operand: fn(&mut Self) -> Read<Expression<'t>>,
        first: Expression<'t>,
    ) -> Read<Expression<'t>> {
        let mut rest = Vec::new();
        while let Some(operator) = operator_of(self.peek()) {
            let at = self.place();
            self.advance();
            rest.push(Operation {
                operator,
                at,
                operand: operand(self)?,
            });
        }
        Ok(join(first, rest))
    }

    fn term(&mut self) -> Read<Expression<'t>> {
        let first = self.factor()?;
        self.chain(product_operator, Self::factor, first)
    }

    fn signed_term(&mut self) -> Read<Expression<'t>> {
        let sign = match self.peek() {
            Kind::Plus => Sign::Plus,
            Kind::Minus => Sign::Minus,
            _ => return self.term(),
        };
        let at = self.place();
        self.advance();
        let operand = Box::new(self.term()?);
        Ok(Expression::Signed { sign, at, operand })
    }

    fn simple(&mut self) -> Read<Expression<'t>> {
        let first = self.signed_term()?;
        self.chain(sum_operator, Self::term, first)
    }

    pub fn expression(&mut self) -> Read<Expression<'t>> {
        let left = self.simple()?;
        let Some(operator) = relation_operator(self.peek()) else {
            return Ok(left);
        };
        let at = self.place();
        self.advance();
        let operand = self.simple()?;
        Ok(join(
            left,
            vec![Operation {
                operator,
                at,
                operand,
            }],
        ))
    }

    fn factor(&mut self) -> Read<Expression<'t>> {
        let at = self.place();
        match self.peek() {
            Kind::Number(value) => {
                self.advance();
                Ok(Expression::Number { at, value })
            }
            Kind::Character(ordinal) => {
                self.advance();
                Ok(Expression::Character { at, ordinal })
            }
            Kind::Name => self.designator_or_call(),
            Kind::OpenParenthesis => self.deeper(|inside| inside.parenthesized(at)),
            Kind::Not => self.deeper(|inside| inside.negation(at)),
            _ => self.wrong(),
        }
    }

    fn parenthesized(&mut self, at: u32) -> Read<Expression<'t>> {
        self.advance();
        let inner = Box::new(self.expression()?);
        self.expect(Kind::CloseParenthesis)?;
        Ok(Expression::Parenthesized { at, inner })
    }

    fn negation(&mut self, at: u32) -> Read<Expression<'t>> {
        self.advance();
        let operand = Box::new(self.factor()?);
        Ok(Expression::Not { at, operand })
    }

    fn designator_or_call(&mut self) -> Read<Expression<'t>> {
        let designator = self.designator()?;
        if !self.sees(Kind::OpenParenthesis) {
            return Ok(Expression::Designated(designator));
        }
        Ok(Expression::Call(designator, self.arguments()?))
    }

    pub fn designator(&mut self) -> Read<Designator<'t>> {
        let root = self.identifier()?;
        let mut selectors = Vec::new();
        loop {
            match self.peek() {
                Kind::Dot => selectors.push(self.field()?),
                Kind::OpenBracket => selectors.push(self.deeper(Self::indexed)?),
                _ => return Ok(Designator { root, selectors }),
            }
        }
    }

    fn field(&mut self) -> Read<Selector<'t>> {
        let at = self.place();
        self.advance();
        Ok(Selector::Field {
            at,
            name: self.identifier()?,
        })
    }

    /// An index after the `[` or the `,` that is next.
    fn index(&mut self) -> Read<Index<'t>> {
        let at = self.place();
        self.advance();
        Ok(Index {
            at,
            value: self.expression()?,
        })
    }

    fn indexed(&mut self) -> Read<Selector<'t>> {
        let mut indices = vec![self.index()?];
        while self.sees(Kind::Comma) {
            indices.push(self.index()?);
        }
        self.expect(Kind::CloseBracket)?;
        Ok(Selector::Indexed(indices))
    }

    fn arguments(&mut self) -> Read<Vec<Expression<'t>>> {
        self.deeper(|inside| {
            inside.advance();
            let arguments = inside.separated(Kind::Comma, Self::expression)?;
            inside.expect(Kind::CloseParenthesis)?;
            Ok(arguments)
        })
    }

    pub fn optional_arguments(&mut self) -> Read<Vec<Expression<'t>>> {
        if self.sees(Kind::OpenParenthesis) {
            self.arguments()
        } else {
            Ok(Vec::new())
        }
    }
}
