//! The parameters of routines and system types.

use super::environment::{product, sum, Access, Entity, ParameterRow, Structure, INTEGER};
use super::{Checker, Rule};
use crate::token::Refusal;
use crate::tree::{Identifier, Parameters, Sort};

/// What a variable's name stands for while its type isn't known.
pub const UNFINISHED: Entity = Entity::Variable(INTEGER, Access::Own);

/// The parameters of a heading: their rows from `first` on, the number of the first name, and the words that they take.
pub struct Heading {
    pub first: usize,
    pub mark: usize,
    pub words: usize,
}

impl<'t> Checker<'t> {
    pub fn declare_all(&mut self, names: &[Identifier<'t>], entity: Entity) {
        for x in names {
            self.declare(*x, entity);
        }
    }

    fn allows_parameter(&self, of: Option<Sort>, t: usize) -> bool {
        match (of, self.structure(t)) {
            (Some(_), Structure::Simple(..)) => true,
            (Some(of), Structure::System(number)) => match self.systems[number].sort {
                Sort::Monitor => true,
                Sort::Class => of == Sort::Class,
                Sort::Process => false,
            },
            (Some(_), _) | (None, Structure::System(_)) => false,
            (None, _) => true,
        }
    }

    /// C7 and C8: a parameter may not have this type.
    fn parameter_type(&mut self, of: Option<Sort>, x: Identifier) -> Option<usize> {
        let t = self.named_type(x)?;
        let rule = if self.has_queues(t) {
            Rule::C8
        } else {
            Rule::C7
        };
        let allowed = rule == Rule::C7 && self.allows_parameter(of, t);
        self.unless(allowed, rule, x.at).then_some(t)
    }

    /// C7 and C11: the word `var` may not stand there.
    fn judge_var(&mut self, of: Option<Sort>, is_function: bool, group: &Parameters) {
        if let Some(at) = group.by_reference {
            self.unless(of.is_none(), Rule::C7, at);
            self.unless(of.is_some() || !is_function, Rule::C11, at);
        }
    }

    fn parameter_group(
        &mut self,
        of: Option<Sort>,
        is_function: bool,
        group: &Parameters<'t>,
    ) -> Result<usize, Refusal> {
        let mark = self.scope.len();
        self.declare_all(&group.names, UNFINISHED);
        self.judge_var(of, is_function, group);
        let t = self.parameter_type(of, group.of);
        self.settle()?;
        self.scope.set_after(mark, Entity::Hidden);
        let row = ParameterRow {
            by_reference: group.by_reference.is_some(),
            of: t.unwrap_or(INTEGER),
        };
        self.parameters.extend(group.names.iter().map(|_| row));
        let words = if row.by_reference {
            1
        } else {
            self.words_in_owner(row.of)
        };
        Ok(product(group.names.len(), words))
    }

    /// Judges the heading of a system type of this sort or of a routine. Its parameters are hidden.
    pub fn heading(
        &mut self,
        of: Option<Sort>,
        is_function: bool,
        groups: &[Parameters<'t>],
    ) -> Result<Heading, Refusal> {
        let (first, mark) = (self.parameters.len(), self.scope.len());
        let mut words = 0;
        for group in groups {
            words = sum(words, self.parameter_group(of, is_function, group)?);
        }
        Ok(Heading { first, mark, words })
    }

    /// Lets the parameters of a heading be seen.
    pub fn show_parameters(&mut self, heading: &Heading) {
        for (number, row) in self.parameters[heading.first..].iter().enumerate() {
            let access = if row.by_reference {
                Access::ByReference
            } else {
                Access::Passive
            };
            self.scope
                .set(heading.mark + number, Entity::Variable(row.of, access));
        }
    }
}
