//! Written types and constants.

use super::environment::{
    is_within, product, simple, sum, Entity, Member, Members, Structure, TypeRow, CHAR, INTEGER,
};
use super::{Checker, Rule};
use crate::tree::{Constant, Fields, Identifier, Sort, TypeExpression};
use std::collections::btree_map::Entry;

/// Where a written type stands.
#[derive(Clone, Copy, PartialEq, Eq)]
pub enum Position {
    Definition,
    Element,
    Field,
    InitialVariable,
    MonitorVariable,
    /// A variable of a process or a class.
    ComponentVariable,
    RoutineVariable,
}

impl Position {
    fn allows_queues(self) -> bool {
        matches!(
            self,
            Position::Definition | Position::Element | Position::MonitorVariable
        )
    }

    fn allows_system(self, sort: Sort) -> bool {
        match self {
            Position::InitialVariable => true,
            Position::MonitorVariable | Position::ComponentVariable => sort == Sort::Class,
            _ => false,
        }
    }
}

impl<'t> Checker<'t> {
    /// The base type and the ordinal of a constant.
    pub fn constant(&mut self, constant: &Constant) -> Option<(usize, i32)> {
        match *constant {
            Constant::Number { value, .. } => Some((INTEGER, i32::from(value))),
            Constant::Negative { value, .. } => Some((INTEGER, -i32::from(value))),
            Constant::Character { ordinal, .. } => Some((CHAR, i32::from(ordinal))),
            Constant::Named(x) => match self.named(x)? {
                Entity::Constant(base, ordinal) => Some((base, ordinal)),
                Entity::UnfinishedConstant => self.breaks(Rule::C4, x.at),
                _ => self.breaks(Rule::C2, x.at),
            },
        }
    }

    /// The type that a name stands for.
    pub fn named_type(&mut self, x: Identifier) -> Option<usize> {
        match self.named(x)? {
            Entity::Type(t) => Some(t),
            Entity::UnfinishedType => self.breaks(Rule::C4, x.at),
            _ => self.breaks(Rule::C2, x.at),
        }
    }

    pub fn add_type(&mut self, row: TypeRow) -> usize {
        self.types.push(row);
        self.types.len() - 1
    }

    fn subrange(&mut self, low: &Constant, high: &Constant) -> Option<usize> {
        let (first, last) = (self.constant(low), self.constant(high));
        let ((base, low), (other, last)) = (first?, last?);
        if base != other {
            return self.breaks(Rule::C2, high.at());
        }
        if low > last {
            return self.breaks(Rule::C3, high.at());
        }
        Some(self.add_type(simple(base, low, last)))
    }

    /// C2: an index type isn't simple.
    fn index_type(&mut self, t: &TypeExpression<'t>) -> Option<usize> {
        let of = self.type_of(t);
        let is_wrong = match of {
            Some(of) => !self.is_simple(of),
            None => matches!(
                t,
                TypeExpression::Array { .. } | TypeExpression::Record { .. }
            ),
        };
        if is_wrong {
            return self.breaks(Rule::C2, t.at());
        }
        of
    }

    fn array(&mut self, at: u32, index: usize, element: usize) -> Option<usize> {
        let Structure::Simple(_, low, high) = self.structure(index) else {
            return None;
        };
        let TypeRow {
            words, has_queues, ..
        } = self.types[element];
        let words = product((high - low + 1) as usize, words);
        if !is_within(words) {
            return self.breaks(Rule::C13, at);
        }
        Some(self.add_type(TypeRow {
            structure: Structure::Array(index, element),
            words,
            has_queues,
        }))
    }

    fn arrays(
        &mut self,
        at: u32,
        indices: &[TypeExpression<'t>],
        element: &TypeExpression<'t>,
    ) -> Option<usize> {
        let indices: Vec<_> = indices.iter().map(|t| self.index_type(t)).collect();
        let mut of = self.type_at(Position::Element, element);
        for index in indices.into_iter().rev() {
            of = self.array(at, index?, of?);
        }
        of
    }

    fn type_of(&mut self, t: &TypeExpression<'t>) -> Option<usize> {
        match t {
            TypeExpression::Named(x) => self.named_type(*x),
            TypeExpression::Subrange(low, high) => self.subrange(low, high),
            TypeExpression::Array {
                at,
                indices,
                element,
            } => self.arrays(*at, indices, element),
            TypeExpression::Record { at, groups } => self.record(*at, groups),
        }
    }

    /// Whether an array's elements have queues, as far as that is known.
    fn holds_queues(&self, t: &TypeExpression) -> bool {
        match t {
            TypeExpression::Named(x) => {
                matches!(self.find(*x), Some(Entity::Type(t)) if self.has_queues(t))
            }
            TypeExpression::Array { element, .. } => self.holds_queues(element),
            _ => false,
        }
    }

    fn misplaces_queues(&self, position: Position, t: &TypeExpression) -> bool {
        match t {
            TypeExpression::Array { element, .. } => {
                !position.allows_queues() && self.holds_queues(element)
            }
            _ => false,
        }
    }

    /// A type in its position. C6: a system type may not stand there. C8: queues may not.
    pub fn type_at(&mut self, position: Position, t: &TypeExpression<'t>) -> Option<usize> {
        let Some(of) = self.type_of(t) else {
            let misplaced = self.misplaces_queues(position, t);
            self.unless(!misplaced, Rule::C8, t.at());
            return None;
        };
        match self.structure(of) {
            Structure::System(number) if !position.allows_system(self.systems[number].sort) => {
                self.breaks(Rule::C6, t.at())
            }
            _ if self.has_queues(of) && !position.allows_queues() => self.breaks(Rule::C8, t.at()),
            _ => Some(of),
        }
    }

    /// Adds a field, and returns whether its name is new.
    fn field(&mut self, members: &mut Members<'t>, x: Identifier<'t>, of: usize) -> bool {
        match members.entry(x.name) {
            Entry::Occupied(_) => self.unless(false, Rule::C1, x.at),
            Entry::Vacant(place) => {
                place.insert(Member::Field(of));
                true
            }
        }
    }

    /// Adds fields of one type, and returns the words that they take.
    fn fields(&mut self, members: &mut Members<'t>, group: &Fields<'t>) -> Option<usize> {
        let of = self.type_at(Position::Field, &group.of);
        let mut fits = true;
        for x in &group.names {
            fits &= self.field(members, *x, of.unwrap_or(INTEGER));
        }
        let words = product(group.names.len(), self.types[of?].words);
        fits.then_some(words)
    }

    fn record(&mut self, at: u32, groups: &[Fields<'t>]) -> Option<usize> {
        let mut members = Members::new();
        let mut words = Some(0);
        for group in groups {
            let more = self.fields(&mut members, group);
            words = words.zip(more).map(|(words, more)| sum(words, more));
        }
        if !is_within(words?) {
            return self.breaks(Rule::C13, at);
        }
        let structure = Structure::Record(self.members.len());
        self.members.push(members);
        Some(self.add_type(TypeRow {
            structure,
            words: words?,
            has_queues: false,
        }))
    }
}
