//! The parser's rules of types, variables, routines and the whole text.

use crate::parser::{Parser, Read};
use crate::token::Kind;
use crate::tree::{
    Constant, ConstantDefinition, Defined, Fields, Identifier, Parameters, Routine, Section, Sort,
    System, Tree, TypeDefinition, TypeExpression,
};

impl<'t> Parser<'t> {
    fn type_expression(&mut self) -> Read<TypeExpression<'t>> {
        match self.peek() {
            Kind::Name => self.name_or_subrange(),
            Kind::Number(_) | Kind::Character(_) | Kind::Minus => {
                let low = self.constant()?;
                self.subrange_from(low)
            }
            Kind::Array => self.deeper(Self::array),
            Kind::Record => self.deeper(Self::record),
            _ => self.wrong(),
        }
    }

    fn name_or_subrange(&mut self) -> Read<TypeExpression<'t>> {
        let name = self.identifier()?;
        if self.sees(Kind::DotDot) {
            self.subrange_from(Constant::Named(name))
        } else {
            Ok(TypeExpression::Named(name))
        }
    }

    fn subrange_from(&mut self, low: Constant<'t>) -> Read<TypeExpression<'t>> {
        self.expect(Kind::DotDot)?;
        Ok(TypeExpression::Subrange(low, self.constant()?))
    }

    fn array(&mut self) -> Read<TypeExpression<'t>> {
        let at = self.place();
        self.advance();
        self.expect(Kind::OpenBracket)?;
        let indices = self.separated(Kind::Comma, Self::type_expression)?;
        self.expect(Kind::CloseBracket)?;
        self.expect(Kind::Of)?;
        let element = Box::new(self.type_expression()?);
        Ok(TypeExpression::Array {
            at,
            indices,
            element,
        })
    }

    fn record(&mut self) -> Read<TypeExpression<'t>> {
        let at = self.place();
        self.advance();
        let groups = self.separated(Kind::Semicolon, Self::fields)?;
        self.expect(Kind::End)?;
        Ok(TypeExpression::Record { at, groups })
    }

    fn fields(&mut self) -> Read<Fields<'t>> {
        let names = self.names()?;
        self.expect(Kind::Colon)?;
        Ok(Fields {
            names,
            of: self.type_expression()?,
        })
    }

    fn variables(&mut self) -> Read<Vec<Fields<'t>>> {
        if self.optional(Kind::Var).is_none() {
            return Ok(Vec::new());
        }
        self.named(|inside| {
            let group = inside.fields()?;
            inside.expect(Kind::Semicolon)?;
            Ok(group)
        })
    }

    fn parameter_group(&mut self) -> Read<Parameters<'t>> {
        let by_reference = self.optional(Kind::Var);
        let names = self.names()?;
        self.expect(Kind::Colon)?;
        Ok(Parameters {
            by_reference,
            names,
            of: self.identifier()?,
        })
    }

    fn parameters(&mut self) -> Read<Vec<Parameters<'t>>> {
        if self.optional(Kind::OpenParenthesis).is_none() {
            return Ok(Vec::new());
        }
        let groups = self.separated(Kind::Semicolon, Self::parameter_group)?;
        self.expect(Kind::CloseParenthesis)?;
        Ok(groups)
    }

    fn result_type(&mut self, is_function: bool) -> Read<Option<Identifier<'t>>> {
        if !is_function {
            return Ok(None);
        }
        self.expect(Kind::Colon)?;
        Ok(Some(self.identifier()?))
    }

    fn routine(&mut self) -> Read<Routine<'t>> {
        let is_function = self.sees(Kind::Function);
        self.advance();
        let entry = self.optional(Kind::Entry);
        let name = self.identifier()?;
        let parameters = self.parameters()?;
        let result_type = self.result_type(is_function)?;
        self.expect(Kind::Semicolon)?;
        let variables = self.variables()?;
        let body = self.body()?;
        self.expect(Kind::Semicolon)?;
        Ok(Routine {
            entry,
            name,
            parameters,
            result_type,
            variables,
            body,
        })
    }

    fn routines(&mut self) -> Read<Vec<Routine<'t>>> {
        let mut found = Vec::new();
        while matches!(self.peek(), Kind::Procedure | Kind::Function) {
            found.push(self.routine()?);
        }
        Ok(found)
    }

    fn system(&mut self, sort: Sort) -> Read<Defined<'t>> {
        self.advance();
        let parameters = self.parameters()?;
        self.expect(Kind::Semicolon)?;
        let variables = self.variables()?;
        let routines = self.routines()?;
        let body = self.body()?;
        Ok(Defined::System(System {
            sort,
            parameters,
            variables,
            routines,
            body,
        }))
    }

    fn enumeration(&mut self) -> Read<Defined<'t>> {
        self.advance();
        let names = self.names()?;
        self.expect(Kind::CloseParenthesis)?;
        Ok(Defined::Enumeration(names))
    }

    fn defined(&mut self) -> Read<Defined<'t>> {
        match self.peek() {
            Kind::Process => self.system(Sort::Process),
            Kind::Monitor => self.system(Sort::Monitor),
            Kind::Class => self.system(Sort::Class),
            Kind::OpenParenthesis => self.enumeration(),
            _ => Ok(Defined::Written(self.type_expression()?)),
        }
    }

    fn type_definition(&mut self) -> Read<TypeDefinition<'t>> {
        let name = self.identifier()?;
        self.expect(Kind::Equal)?;
        let defined = self.defined()?;
        self.expect(Kind::Semicolon)?;
        Ok(TypeDefinition { name, defined })
    }

    fn constant_definition(&mut self) -> Read<ConstantDefinition<'t>> {
        let name = self.identifier()?;
        self.expect(Kind::Equal)?;
        let value = self.constant()?;
        self.expect(Kind::Semicolon)?;
        Ok(ConstantDefinition { name, value })
    }

    fn sections(&mut self) -> Read<Vec<Section<'t>>> {
        let mut found = Vec::new();
        loop {
            if self.optional(Kind::Const).is_some() {
                found.push(Section::Constants(self.named(Self::constant_definition)?));
            } else if self.optional(Kind::Type).is_some() {
                found.push(Section::Types(self.named(Self::type_definition)?));
            } else {
                return Ok(found);
            }
        }
    }

    pub fn tree(&mut self) -> Read<Tree<'t>> {
        let sections = self.sections()?;
        let variables = self.variables()?;
        let routines = self.routines()?;
        let body = self.body()?;
        self.expect(Kind::Dot)?;
        Ok(Tree {
            sections,
            variables,
            routines,
            body,
        })
    }
}
