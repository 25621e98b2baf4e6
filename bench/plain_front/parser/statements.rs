//! The parser's rules of statements.

use crate::parser::{Parser, Read};
use crate::token::Kind;
use crate::tree::{Arm, Assignment, Body, Direction, ForHeader, InitItem, Statement};

impl<'t> Parser<'t> {
    fn list(&mut self) -> Read<Vec<Statement<'t>>> {
        self.separated(Kind::Semicolon, Self::statement)
    }

    pub fn body(&mut self) -> Read<Body<'t>> {
        if !self.sees(Kind::Begin) {
            return self.wrong();
        }
        self.deeper(|inside| {
            let at = inside.place();
            inside.advance();
            let statements = inside.list()?;
            inside.expect(Kind::End)?;
            Ok(Body { at, statements })
        })
    }

    fn statement(&mut self) -> Read<Statement<'t>> {
        match self.peek() {
            Kind::Name => self.assignment_or_call(),
            Kind::Begin => Ok(Statement::Compound(self.body()?.statements)),
            Kind::If => self.deeper(Self::conditional),
            Kind::Case => self.deeper(Self::case),
            Kind::While => self.deeper(Self::while_loop),
            Kind::Repeat => self.deeper(Self::repeat_loop),
            Kind::For => self.deeper(Self::for_loop),
            Kind::Cycle => self.deeper(Self::cycle),
            Kind::Init => self.init(),
            _ => Ok(Statement::Empty),
        }
    }

    fn assignment_or_call(&mut self) -> Read<Statement<'t>> {
        let target = self.designator()?;
        if !self.sees(Kind::Assign) {
            let arguments = self.optional_arguments()?;
            return Ok(Statement::Call(Box::new(target), arguments));
        }
        let at = self.place();
        self.advance();
        let value = self.expression()?;
        Ok(Statement::Assign(Box::new(Assignment {
            target,
            at,
            value,
        })))
    }

    fn conditional(&mut self) -> Read<Statement<'t>> {
        self.advance();
        let condition = Box::new(self.expression()?);
        self.expect(Kind::Then)?;
        let then = Box::new(self.statement()?);
        if !self.sees(Kind::Else) {
            return Ok(Statement::If { condition, then });
        }
        self.advance();
        let otherwise = Box::new(self.statement()?);
        Ok(Statement::IfElse {
            condition,
            then,
            otherwise,
        })
    }

    fn arm(&mut self) -> Read<Arm<'t>> {
        let labels = self.constants()?;
        self.expect(Kind::Colon)?;
        Ok(Arm {
            labels,
            body: self.statement()?,
        })
    }

    fn case(&mut self) -> Read<Statement<'t>> {
        self.advance();
        let selector = Box::new(self.expression()?);
        self.expect(Kind::Of)?;
        let arms = self.separated(Kind::Semicolon, Self::arm)?;
        self.expect(Kind::End)?;
        Ok(Statement::Case { selector, arms })
    }

    fn while_loop(&mut self) -> Read<Statement<'t>> {
        self.advance();
        let condition = Box::new(self.expression()?);
        self.expect(Kind::Do)?;
        let body = Box::new(self.statement()?);
        Ok(Statement::While { condition, body })
    }

    fn repeat_loop(&mut self) -> Read<Statement<'t>> {
        self.advance();
        let body = self.list()?;
        self.expect(Kind::Until)?;
        let condition = Box::new(self.expression()?);
        Ok(Statement::Repeat { body, condition })
    }

    fn direction(&mut self) -> Read<Direction> {
        let direction = match self.peek() {
            Kind::To => Direction::Up,
            Kind::Downto => Direction::Down,
            _ => return self.wrong(),
        };
        self.advance();
        Ok(direction)
    }

    fn for_loop(&mut self) -> Read<Statement<'t>> {
        self.advance();
        let variable = self.identifier()?;
        self.expect(Kind::Assign)?;
        let from = self.expression()?;
        let direction = self.direction()?;
        let last = self.expression()?;
        self.expect(Kind::Do)?;
        let body = Box::new(self.statement()?);
        let header = Box::new(ForHeader {
            variable,
            from,
            direction,
            last,
        });
        Ok(Statement::For { header, body })
    }

    fn cycle(&mut self) -> Read<Statement<'t>> {
        self.advance();
        let body = self.list()?;
        self.expect(Kind::End)?;
        Ok(Statement::Cycle(body))
    }

    fn init(&mut self) -> Read<Statement<'t>> {
        let at = self.place();
        self.advance();
        let items = self.separated(Kind::Comma, Self::init_item)?;
        Ok(Statement::Init { at, items })
    }

    fn init_item(&mut self) -> Read<InitItem<'t>> {
        let component = self.identifier()?;
        Ok(InitItem {
            component,
            arguments: self.optional_arguments()?,
        })
    }
}
