//! What names stand for, and the tables of types, routines and components.

use crate::tree::Sort;
use std::collections::btree_map::{BTreeMap, Entry};

pub const INTEGER: usize = 0;
pub const BOOLEAN: usize = 1;
pub const CHAR: usize = 2;
pub const QUEUE: usize = 3;

/// The largest number of words of an owner or a type.
const WORDS: usize = 65_536;

#[derive(Clone, Copy, PartialEq, Eq)]
pub enum Access {
    /// A variable of the component or the routine.
    Own,
    /// A `var` parameter.
    ByReference,
    /// Any other parameter.
    Passive,
}

#[derive(Clone, Copy, PartialEq, Eq)]
pub enum Standard {
    Abs,
    Succ,
    Pred,
    Ord,
    Chr,
    Empty,
    Realtime,
    Delay,
    Continue,
    Display,
    Accept,
    Wait,
}

/// What a name stands for. Types, routines and systems are told by the numbers of their rows.
#[derive(Clone, Copy)]
pub enum Entity {
    /// The base type.
    Constant(usize, i32),
    Type(usize),
    Variable(usize, Access),
    Routine(usize),
    /// A routine of another component.
    Entry(usize),
    Standard(Standard),
    UnfinishedConstant,
    UnfinishedType,
    UnfinishedRoutine(usize),
    /// A parameter before the end of its heading.
    Hidden,
}

/// The visible names in the order of their declarations.
#[derive(Default)]
pub struct Scope<'t> {
    entries: Vec<(&'t [u8], Entity)>,
    numbers: BTreeMap<&'t [u8], usize>,
}

impl<'t> Scope<'t> {
    pub fn len(&self) -> usize {
        self.entries.len()
    }

    pub fn find(&self, name: &[u8]) -> Option<Entity> {
        self.numbers.get(name).map(|number| self.entries[*number].1)
    }

    /// Declares a name, unless it is visible, and returns whether it is new.
    pub fn declare(&mut self, name: &'t [u8], entity: Entity) -> bool {
        match self.numbers.entry(name) {
            Entry::Occupied(_) => false,
            Entry::Vacant(place) => {
                place.insert(self.entries.len());
                self.entries.push((name, entity));
                true
            }
        }
    }

    pub fn set(&mut self, number: usize, entity: Entity) {
        self.entries[number].1 = entity;
    }

    /// Lets all names that were declared after the first `mark` stand for this.
    pub fn set_after(&mut self, mark: usize, entity: Entity) {
        for entry in &mut self.entries[mark..] {
            entry.1 = entity;
        }
    }

    pub fn after(&self, mark: usize) -> &[(&'t [u8], Entity)] {
        &self.entries[mark..]
    }

    pub fn leave(&mut self, mark: usize) {
        for (name, _) in self.entries.drain(mark..) {
            self.numbers.remove(name);
        }
    }
}

#[derive(Clone, Copy)]
pub enum Member {
    /// A field of this type.
    Field(usize),
    Routine(usize),
}

pub type Members<'t> = BTreeMap<&'t [u8], Member>;

#[derive(Clone, Copy)]
pub enum Structure {
    /// The base type and the bounds.
    Simple(usize, i32, i32),
    /// The types of the index and of the elements.
    Array(usize, usize),
    /// The number of its members.
    Record(usize),
    Queue,
    System(usize),
}

#[derive(Clone, Copy)]
pub struct TypeRow {
    pub structure: Structure,
    pub words: usize,
    pub has_queues: bool,
}

#[derive(Clone, Copy)]
pub struct ParameterRow {
    pub by_reference: bool,
    pub of: usize,
}

/// A routine: its parameters are `count` rows from row `first`.
#[derive(Clone, Copy)]
pub struct RoutineRow {
    pub entry: bool,
    pub first: usize,
    pub count: usize,
    pub result: Option<usize>,
    /// The words that a call takes.
    pub need: usize,
}

#[derive(Clone, Copy)]
pub struct SystemRow {
    pub sort: Sort,
    pub first: usize,
    pub count: usize,
    pub words: usize,
    /// The words that its body needs.
    pub need: usize,
    pub members: usize,
}

#[derive(Clone, Copy, PartialEq, Eq)]
pub enum Part {
    Body,
    Routine,
    EntryRoutine,
}

/// Where a statement stands.
#[derive(Clone, Copy)]
pub struct Region {
    pub sort: Sort,
    pub part: Part,
}

pub fn is_within(words: usize) -> bool {
    words <= WORDS
}

/// Words are counted up to one above the limit.
pub fn sum(a: usize, b: usize) -> usize {
    (a + b).min(WORDS + 1)
}

pub fn product(count: usize, words: usize) -> usize {
    (count.min(WORDS + 1) * words).min(WORDS + 1)
}

pub fn simple(base: usize, low: i32, high: i32) -> TypeRow {
    TypeRow {
        structure: Structure::Simple(base, low, high),
        words: 1,
        has_queues: false,
    }
}

pub fn standard_types() -> Vec<TypeRow> {
    vec![
        simple(INTEGER, -32_768, 32_767),
        simple(BOOLEAN, 0, 1),
        simple(CHAR, 0, 127),
        TypeRow {
            structure: Structure::Queue,
            words: 1,
            has_queues: true,
        },
    ]
}

const STANDARD_NAMES: [(&[u8], Entity); 18] = [
    (b"integer", Entity::Type(INTEGER)),
    (b"boolean", Entity::Type(BOOLEAN)),
    (b"char", Entity::Type(CHAR)),
    (b"queue", Entity::Type(QUEUE)),
    (b"false", Entity::Constant(BOOLEAN, 0)),
    (b"true", Entity::Constant(BOOLEAN, 1)),
    (b"abs", Entity::Standard(Standard::Abs)),
    (b"succ", Entity::Standard(Standard::Succ)),
    (b"pred", Entity::Standard(Standard::Pred)),
    (b"ord", Entity::Standard(Standard::Ord)),
    (b"chr", Entity::Standard(Standard::Chr)),
    (b"empty", Entity::Standard(Standard::Empty)),
    (b"realtime", Entity::Standard(Standard::Realtime)),
    (b"delay", Entity::Standard(Standard::Delay)),
    (b"continue", Entity::Standard(Standard::Continue)),
    (b"display", Entity::Standard(Standard::Display)),
    (b"accept", Entity::Standard(Standard::Accept)),
    (b"wait", Entity::Standard(Standard::Wait)),
];

pub fn standard_names<'t>() -> Scope<'t> {
    let mut names = Scope::default();
    for (name, entity) in STANDARD_NAMES {
        names.declare(name, entity);
    }
    names
}
