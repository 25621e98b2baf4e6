//! Statements.

use super::designators::{designator_of, Mode};
use super::environment::{Entity, BOOLEAN};
use super::{Checker, Judged, Rule};
use crate::tree::{Arm, Assignment, Constant, Expression, ForHeader, Identifier, Statement};
use std::collections::BTreeSet;

impl<'t> Checker<'t> {
    pub fn statements(&mut self, list: &[Statement<'t>]) -> Judged {
        list.iter()
            .try_for_each(|statement| self.statement(statement))
    }

    fn statement(&mut self, statement: &Statement<'t>) -> Judged {
        match statement {
            Statement::Empty => return Ok(()),
            Statement::Assign(assignment) => self.assignment(assignment),
            Statement::Call(d, list) => self.call_statement(d, list),
            Statement::Compound(list) | Statement::Cycle(list) => self.statements(list)?,
            Statement::If {
                condition,
                then: body,
            }
            | Statement::While { condition, body } => {
                self.condition(condition);
                self.statement(body)?;
            }
            Statement::IfElse {
                condition,
                then,
                otherwise,
            } => {
                self.condition(condition);
                self.statement(then)?;
                self.statement(otherwise)?;
            }
            Statement::Case { selector, arms } => self.case(selector, arms)?,
            Statement::Repeat { body, condition } => {
                self.statements(body)?;
                self.condition(condition);
            }
            Statement::For { header, body } => {
                self.for_header(header);
                self.statement(body)?;
            }
            Statement::Init { at, items } => self.init(*at, items),
        }
        self.settle()
    }

    /// The type of a left side that is the name of the function that is being defined, or a part of its result.
    fn own_result(&mut self, x: Identifier, is_whole: bool, number: usize) -> Option<usize> {
        let result = self.routines[number].result;
        self.unless(result.is_some(), Rule::C4, x.at);
        self.unless(is_whole && result.is_some(), Rule::C10, x.at);
        result.filter(|_| is_whole)
    }

    fn left(&mut self, assignment: &Assignment<'t>) -> Option<usize> {
        let d = &assignment.target;
        let root = self.find(d.root);
        if let Some(Entity::UnfinishedRoutine(number)) = root {
            return self.own_result(d.root, d.selectors.is_empty(), number);
        }
        let fits = self.names_fit(Mode::Variable, d, root);
        let is_variable = self.designates_variable(d, root);
        self.type_of_designator(Mode::Variable, d, root)
            .filter(|_| fits && is_variable)
    }

    /// The type of a component, if its name is the whole expression.
    fn lone_component(&self, e: &Expression) -> Option<usize> {
        let d = designator_of(e).filter(|d| d.selectors.is_empty())?;
        match self.find(d.root) {
            Some(Entity::Variable(t, _)) if self.system(t).is_some() => Some(t),
            _ => None,
        }
    }

    fn right(&mut self, left: Option<usize>, e: &Expression<'t>) -> Option<usize> {
        if left.is_some_and(|t| self.system(t).is_some()) {
            if let Some(t) = self.lone_component(e) {
                return Some(t);
            }
        }
        self.expression(Mode::Value, e)
    }

    /// C2: the sides don't agree.
    fn assignment(&mut self, assignment: &Assignment<'t>) {
        let left = self.left(assignment);
        let right = self.right(left, &assignment.value);
        if let (Some(a), Some(b)) = (left, right) {
            let agree = self.agree(a, b);
            self.unless(agree, Rule::C2, assignment.at);
        }
    }

    /// C2: a condition isn't Boolean.
    fn condition(&mut self, e: &Expression<'t>) {
        if let Some(t) = self.expression(Mode::Value, e) {
            let is_boolean = self.is_base(BOOLEAN, t);
            self.unless(is_boolean, Rule::C2, e.at());
        }
    }

    /// The type of the variable of a `for`.
    fn for_variable(&mut self, v: Identifier) -> Option<usize> {
        let entity = self.find(v);
        let is_variable = self.is_variable(entity, &[]);
        self.unless(is_variable, Rule::C10, v.at);
        let in_place = self.queue_in_place(Mode::Variable, v, entity);
        let t = match self.named(v)? {
            Entity::Constant(base, _) => base,
            Entity::Variable(t, _) => t,
            entity => {
                self.anywhere(v, entity);
                return None;
            }
        };
        let is_simple = self.is_simple(t);
        self.unless(is_simple, Rule::C2, v.at);
        (in_place && is_variable && is_simple).then_some(t)
    }

    /// C2: a bound doesn't agree with its variable.
    fn bound(&mut self, variable: Option<usize>, e: &Expression<'t>) {
        let t = self.expression(Mode::Value, e);
        if let (Some(variable), Some(t)) = (variable, t) {
            let agree = self.agree(variable, t);
            self.unless(agree, Rule::C2, e.at());
        }
    }

    fn for_header(&mut self, header: &ForHeader<'t>) {
        let t = self.for_variable(header.variable);
        self.bound(t, &header.from);
        self.bound(t, &header.last);
    }

    /// The base type of a selector. C2: it isn't simple.
    fn selector(&mut self, e: &Expression<'t>) -> Option<usize> {
        let t = self.expression(Mode::Value, e)?;
        let base = self.base(t);
        self.unless(base.is_some(), Rule::C2, e.at());
        base
    }

    /// C2: the label is of another base type. C3: it occurs twice.
    fn label(&mut self, base: Option<usize>, seen: &mut BTreeSet<(usize, i32)>, c: &Constant) {
        if let Some(label) = self.constant(c) {
            self.unless(base.is_none_or(|base| base == label.0), Rule::C2, c.at());
            self.unless(seen.insert(label), Rule::C3, c.at());
        }
    }

    fn case(&mut self, selector: &Expression<'t>, arms: &[Arm<'t>]) -> Judged {
        let base = self.selector(selector);
        let mut seen = BTreeSet::new();
        for arm in arms {
            for label in &arm.labels {
                self.label(base, &mut seen, label);
            }
            self.statement(&arm.body)?;
        }
        Ok(())
    }
}
