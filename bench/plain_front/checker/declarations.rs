//! Definitions, variables, routines, system types and the whole text.

use super::environment::{
    is_within, product, simple, sum, Access, Entity, Member, Members, Part, Region, RoutineRow,
    Structure, SystemRow, TypeRow,
};
use super::headings::{Heading, UNFINISHED};
use super::types::Position;
use super::{Checker, Judged, Rule};
use crate::token::Refusal;
use crate::tree::{
    ConstantDefinition, Defined, Fields, Identifier, Routine, Section, Sort, System, Tree,
    TypeDefinition, TypeExpression,
};

/// The largest number of processes, with the initial one, and of monitors.
const MOST: usize = 255;

impl<'t> Checker<'t> {
    fn define_constant(&mut self, definition: &ConstantDefinition<'t>) -> Judged {
        let number = self.scope.len();
        self.declare(definition.name, Entity::UnfinishedConstant);
        let value = self.constant(&definition.value);
        self.settle()?;
        if let Some((base, ordinal)) = value {
            self.scope.set(number, Entity::Constant(base, ordinal));
        }
        Ok(())
    }

    fn define_type(&mut self, x: Identifier<'t>, t: &TypeExpression<'t>) -> Judged {
        let number = self.scope.len();
        self.declare(x, Entity::UnfinishedType);
        let of = self.type_at(Position::Definition, t);
        self.settle()?;
        if let Some(of) = of {
            self.scope.set(number, Entity::Type(of));
        }
        Ok(())
    }

    fn define_enumeration(&mut self, x: Identifier<'t>, names: &[Identifier<'t>]) -> Judged {
        let t = self.types.len();
        self.add_type(simple(t, 0, names.len() as i32 - 1));
        self.declare(x, Entity::Type(t));
        for (ordinal, name) in names.iter().enumerate() {
            self.declare(*name, Entity::Constant(t, ordinal as i32));
        }
        self.settle()
    }

    fn define_types(&mut self, definition: &TypeDefinition<'t>) -> Judged {
        match &definition.defined {
            Defined::Written(t) => self.define_type(definition.name, t),
            Defined::Enumeration(names) => self.define_enumeration(definition.name, names),
            Defined::System(system) => self.define_system(definition.name, system),
        }
    }

    fn define(&mut self, section: &Section<'t>) -> Judged {
        match section {
            Section::Constants(list) => list
                .iter()
                .try_for_each(|definition| self.define_constant(definition)),
            Section::Types(list) => list
                .iter()
                .try_for_each(|definition| self.define_types(definition)),
        }
    }

    /// The words that a variable takes from its owner. Processes and monitors are owners themselves.
    pub fn words_in_owner(&self, t: usize) -> usize {
        match self.structure(t) {
            Structure::System(number) if self.systems[number].sort != Sort::Class => 0,
            _ => self.types[t].words,
        }
    }

    /// Counts a process or a monitor. C13: it is one too many, or has too many words.
    fn owner(&mut self, x: Identifier, system: SystemRow) {
        let count = match system.sort {
            Sort::Process => &mut self.processes,
            Sort::Monitor => &mut self.monitors,
            Sort::Class => return,
        };
        *count += 1;
        let fits = *count <= MOST && is_within(system.words);
        self.unless(fits, Rule::C13, x.at);
    }

    fn owners(&mut self, names: &[Identifier], t: usize) {
        if let Some(number) = self.system(t) {
            let system = self.systems[number];
            names.iter().for_each(|x| self.owner(*x, system));
        }
    }

    /// Declares variables of one type, and returns the words that they take.
    fn variable_group(&mut self, position: Position, group: &Fields<'t>) -> Result<usize, Refusal> {
        let mark = self.scope.len();
        self.declare_all(&group.names, UNFINISHED);
        let Some(t) = self.type_at(position, &group.of) else {
            return self.settle().map(|()| 0);
        };
        self.scope.set_after(mark, Entity::Variable(t, Access::Own));
        if position == Position::InitialVariable {
            self.owners(&group.names, t);
        }
        self.settle()?;
        Ok(product(group.names.len(), self.words_in_owner(t)))
    }

    fn variables(&mut self, position: Position, groups: &[Fields<'t>]) -> Result<usize, Refusal> {
        let mut words = 0;
        for group in groups {
            words = sum(words, self.variable_group(position, group)?);
        }
        Ok(words)
    }

    /// The type of a function's result. C8: it has queues. C11: it isn't simple.
    fn result_type(&mut self, x: Identifier) -> Option<usize> {
        let t = self.named_type(x)?;
        let has_queues = self.has_queues(t);
        self.unless(!has_queues, Rule::C8, x.at);
        let is_simple = self.is_simple(t);
        self.unless(is_simple, Rule::C11, x.at);
        Some(t)
    }

    /// Judges the heading of a routine, whose name is declared, and adds its row. C5: the word `entry`.
    fn routine_heading(&mut self, sort: Sort, routine: &Routine<'t>) -> Result<Heading, Refusal> {
        if let Some(at) = routine.entry {
            self.unless(sort != Sort::Process, Rule::C5, at);
        }
        let heading = self.heading(None, routine.result_type.is_some(), &routine.parameters)?;
        let result = routine.result_type.and_then(|x| self.result_type(x));
        self.settle()?;
        let count = self.parameters.len() - heading.first;
        self.routines.push(RoutineRow {
            entry: routine.entry.is_some(),
            first: heading.first,
            count,
            result,
            need: 0,
        });
        Ok(heading)
    }

    /// Judges the variables and the body of a routine, and returns the words that they take.
    fn routine_body(&mut self, sort: Sort, routine: &Routine<'t>) -> Result<usize, Refusal> {
        let part = if routine.entry.is_some() {
            Part::EntryRoutine
        } else {
            Part::Routine
        };
        let outside = std::mem::replace(&mut self.region, Region { sort, part });
        let words = self.variables(Position::RoutineVariable, &routine.variables)?;
        self.need = 0;
        self.statements(&routine.body.statements)?;
        self.region = outside;
        Ok(sum(words, self.need))
    }

    fn routine(&mut self, sort: Sort, routine: &Routine<'t>) -> Judged {
        let (mark, number) = (self.scope.len(), self.routines.len());
        self.declare(routine.name, Entity::UnfinishedRoutine(number));
        let heading = self.routine_heading(sort, routine)?;
        self.show_parameters(&heading);
        let inside = self.routine_body(sort, routine)?;
        let own = 1 + usize::from(routine.result_type.is_some());
        self.routines[number].need = sum(sum(own, heading.words), inside);
        self.scope.leave(mark + 1);
        self.scope.set(mark, Entity::Routine(number));
        Ok(())
    }

    fn routines(&mut self, sort: Sort, list: &[Routine<'t>]) -> Judged {
        list.iter()
            .try_for_each(|routine| self.routine(sort, routine))
    }

    /// Judges the variables, the routines and the body of a system type, and returns the words of the variables.
    fn system_parts(&mut self, system: &System<'t>) -> Result<usize, Refusal> {
        let position = if system.sort == Sort::Monitor {
            Position::MonitorVariable
        } else {
            Position::ComponentVariable
        };
        let words = self.variables(position, &system.variables)?;
        self.routines(system.sort, &system.routines)?;
        self.need = 0;
        self.statements(&system.body.statements)?;
        Ok(words)
    }

    /// The routines among the names that were declared after the first `mark`.
    fn routine_members(&self, mark: usize) -> Members<'t> {
        let names = self.scope.after(mark).iter();
        names
            .filter_map(|(name, entity)| match entity {
                Entity::Routine(number) => Some((*name, Member::Routine(*number))),
                _ => None,
            })
            .collect()
    }

    fn add_system(&mut self, row: SystemRow, members: Members<'t>) -> usize {
        self.members.push(members);
        self.systems.push(row);
        let structure = Structure::System(self.systems.len() - 1);
        self.add_type(TypeRow {
            structure,
            words: row.words,
            has_queues: false,
        })
    }

    fn define_system(&mut self, x: Identifier<'t>, system: &System<'t>) -> Judged {
        let mark = self.scope.len();
        self.declare(x, Entity::UnfinishedType);
        let heading = self.heading(Some(system.sort), false, &system.parameters)?;
        self.show_parameters(&heading);
        let count = self.parameters.len() - heading.first;
        let outside = std::mem::replace(
            &mut self.region,
            Region {
                sort: system.sort,
                part: Part::Body,
            },
        );
        let words = sum(sum(1, count), self.system_parts(system)?);
        self.settle()?;
        self.region = outside;
        let need = self.need;
        let words = if system.sort == Sort::Process {
            sum(words, need)
        } else {
            words
        };
        let row = SystemRow {
            sort: system.sort,
            first: heading.first,
            count,
            words,
            need,
            members: self.members.len(),
        };
        let members = self.routine_members(mark + 1);
        self.scope.leave(mark + 1);
        let t = self.add_system(row, members);
        self.scope.set(mark, Entity::Type(t));
        Ok(())
    }

    /// Judges a text. C13: the initial process has too many words.
    pub fn text(&mut self, tree: &Tree<'t>) -> Judged {
        tree.sections
            .iter()
            .try_for_each(|section| self.define(section))?;
        let words = self.variables(Position::InitialVariable, &tree.variables)?;
        self.routines(Sort::Process, &tree.routines)?;
        self.need = 0;
        self.statements(&tree.body.statements)?;
        let fits = is_within(sum(sum(1, words), self.need));
        self.unless(fits, Rule::C13, tree.body.at);
        self.settle()
    }
}
