//! The checker: the environment of the part that is judged, and the first violation.
//!
//! It goes on to the end of a declaration or a statement that breaks a rule, since an earlier place may be found there.

mod calls;
mod components;
mod declarations;
mod designators;
mod environment;
mod expressions;
mod headings;
mod statements;
mod types;

use crate::token::Refusal;
use crate::tree::{Identifier, Sort, Tree};
use environment::{
    standard_names, standard_types, Entity, Member, Members, ParameterRow, Part, Region,
    RoutineRow, Scope, Structure, SystemRow, TypeRow,
};

/// The number of a rule of docs/language.md.
#[derive(Clone, Copy, PartialEq, Eq, PartialOrd, Ord)]
pub enum Rule {
    C1 = 1,
    C2,
    C3,
    C4,
    C5,
    C6,
    C7,
    C8,
    C9,
    C10,
    C11,
    C12,
    C13,
}

pub type Judged = Result<(), Refusal>;

pub struct Checker<'t> {
    scope: Scope<'t>,
    types: Vec<TypeRow>,
    members: Vec<Members<'t>>,
    routines: Vec<RoutineRow>,
    parameters: Vec<ParameterRow>,
    systems: Vec<SystemRow>,
    processes: usize,
    monitors: usize,
    region: Region,
    /// The greatest need among what the statements that are judged call and initialise.
    need: usize,
    /// The place and the rule of the earliest violation.
    earliest: Option<(u32, Rule)>,
}

/// Judges a text by all rules.
pub fn check(tree: &Tree) -> Judged {
    let mut checker = Checker {
        scope: standard_names(),
        types: standard_types(),
        members: Vec::new(),
        routines: Vec::new(),
        parameters: Vec::new(),
        systems: Vec::new(),
        processes: 1,
        monitors: 0,
        region: Region {
            sort: Sort::Process,
            part: Part::Body,
        },
        need: 0,
        earliest: None,
    };
    checker.text(tree)
}

impl<'t> Checker<'t> {
    #[cold]
    fn tell(&mut self, rule: Rule, at: u32) {
        if self.earliest.is_none_or(|earliest| (at, rule) < earliest) {
            self.earliest = Some((at, rule));
        }
    }

    fn breaks<A>(&mut self, rule: Rule, at: u32) -> Option<A> {
        self.tell(rule, at);
        None
    }

    /// Tells that a rule is broken, unless this holds.
    fn unless(&mut self, holds: bool, rule: Rule, at: u32) -> bool {
        if !holds {
            self.tell(rule, at);
        }
        holds
    }

    /// Ends the walk if a rule was broken.
    fn settle(&self) -> Judged {
        match self.earliest {
            None => Ok(()),
            Some((at, rule)) => Err(Refusal {
                letter: 'C',
                number: rule as u8,
                at,
            }),
        }
    }

    fn declare(&mut self, x: Identifier<'t>, entity: Entity) {
        let is_new = self.scope.declare(x.name, entity);
        self.unless(is_new, Rule::C1, x.at);
    }

    /// What a name stands for, if it is visible.
    fn find(&self, x: Identifier) -> Option<Entity> {
        match self.scope.find(x.name) {
            Some(Entity::Hidden) => None,
            entity => entity,
        }
    }

    /// What a name stands for. C1: it isn't visible.
    fn named(&mut self, x: Identifier) -> Option<Entity> {
        match self.find(x) {
            None => self.breaks(Rule::C1, x.at),
            entity => entity,
        }
    }

    fn structure(&self, t: usize) -> Structure {
        self.types[t].structure
    }

    fn base(&self, t: usize) -> Option<usize> {
        match self.structure(t) {
            Structure::Simple(base, _, _) => Some(base),
            _ => None,
        }
    }

    fn is_base(&self, wanted: usize, t: usize) -> bool {
        self.base(t) == Some(wanted)
    }

    fn is_simple(&self, t: usize) -> bool {
        self.base(t).is_some()
    }

    fn has_queues(&self, t: usize) -> bool {
        self.types[t].has_queues
    }

    fn system(&self, t: usize) -> Option<usize> {
        match self.structure(t) {
            Structure::System(number) => Some(number),
            _ => None,
        }
    }

    fn agree(&self, a: usize, b: usize) -> bool {
        match (self.structure(a), self.structure(b)) {
            (Structure::Simple(a, _, _), Structure::Simple(b, _, _)) => a == b,
            (Structure::Array(..) | Structure::Record(_), _) => a == b,
            _ => false,
        }
    }

    fn member(&self, t: usize, name: &[u8]) -> Option<Member> {
        let members = match self.structure(t) {
            Structure::Record(members) => members,
            Structure::System(number) => self.systems[number].members,
            _ => return None,
        };
        self.members[members].get(name).copied()
    }

    fn note_need(&mut self, need: usize) {
        self.need = self.need.max(need);
    }
}
