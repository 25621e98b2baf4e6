//! Calls: what a routine wants as arguments, and what it gives.

use super::designators::{designator_of, sort_rule, Mode};
use super::environment::{
    Entity, Member, ParameterRow, RoutineRow, Standard, Structure, BOOLEAN, CHAR, INTEGER, QUEUE,
};
use super::{Checker, Rule};
use crate::tree::{Designator, Expression, Identifier, Selector};

/// What is required of an argument.
#[derive(Clone, Copy)]
enum Want {
    Parameter(ParameterRow),
    Simple,
    Integer,
    CharVariable,
    QueueVariable,
}

/// What is required of all arguments of a call.
#[derive(Clone, Copy)]
pub enum Wants {
    Nothing,
    One(Standard),
    /// The first parameter and their number.
    Parameters(usize, usize),
}

#[derive(Clone, Copy)]
pub enum Gives {
    Value(usize),
    /// A value of the base type of the argument.
    ArgumentBase,
}

fn standard_want(standard: Standard) -> Option<Want> {
    match standard {
        Standard::Abs | Standard::Chr => Some(Want::Integer),
        Standard::Succ | Standard::Pred | Standard::Ord | Standard::Display => Some(Want::Simple),
        Standard::Empty | Standard::Delay | Standard::Continue => Some(Want::QueueVariable),
        Standard::Accept => Some(Want::CharVariable),
        Standard::Realtime | Standard::Wait => None,
    }
}

fn standard_function(standard: Standard) -> Option<Gives> {
    match standard {
        Standard::Abs | Standard::Ord | Standard::Realtime => Some(Gives::Value(INTEGER)),
        Standard::Succ | Standard::Pred => Some(Gives::ArgumentBase),
        Standard::Chr => Some(Gives::Value(CHAR)),
        Standard::Empty => Some(Gives::Value(BOOLEAN)),
        _ => None,
    }
}

fn standard_fits(standard: Standard, count: usize) -> bool {
    count == usize::from(standard_want(standard).is_some())
}

fn mode_of(want: Want) -> Mode {
    match want {
        Want::Parameter(ParameterRow {
            by_reference: true, ..
        })
        | Want::CharVariable => Mode::Variable,
        Want::QueueVariable => Mode::Queue,
        _ => Mode::Value,
    }
}

impl<'t> Checker<'t> {
    /// The row of what is called, if that is a routine of the text. C4: its own definition. C5: `entry` isn't as it has to be.
    fn called_row(&mut self, x: Identifier, entity: Entity) -> Option<(RoutineRow, bool)> {
        match entity {
            Entity::Routine(number) => {
                let row = self.routines[number];
                Some((row, self.unless(!row.entry, Rule::C5, x.at)))
            }
            Entity::Entry(number) => {
                let row = self.routines[number];
                Some((row, self.unless(row.entry, Rule::C5, x.at)))
            }
            Entity::UnfinishedRoutine(number) => {
                Some((self.routines[number], self.outside_definition(x, entity)))
            }
            _ => None,
        }
    }

    /// What a function with so many arguments gives.
    fn function(
        &mut self,
        mode: Mode,
        d: &Designator,
        count: usize,
        entity: Entity,
    ) -> Option<Gives> {
        let (x, rule) = (d.last_name(), sort_rule(mode, d));
        if let Entity::Standard(standard) = entity {
            let in_place = self.in_place(x, standard);
            let gives = standard_function(standard);
            let fits = standard_fits(standard, count);
            self.unless(fits, Rule::C2, x.at);
            self.unless(!fits || gives.is_some(), rule, x.at);
            return gives.filter(|_| fits && in_place);
        }
        let Some((row, in_place)) = self.called_row(x, entity) else {
            self.outside_definition(x, entity);
            return self.breaks(rule, x.at);
        };
        let fits = row.count == count;
        self.unless(fits, Rule::C2, x.at);
        self.unless(!fits || row.result.is_some(), rule, x.at);
        row.result.filter(|_| fits && in_place).map(Gives::Value)
    }

    /// C2, C4, C5 and C9 for a procedure with so many arguments.
    fn procedure(&mut self, d: &Designator, count: usize, entity: Entity) {
        let x = d.last_name();
        let fits = if let Entity::Standard(standard) = entity {
            self.in_place(x, standard);
            let is_procedure = standard_function(standard).is_none();
            is_procedure && standard_fits(standard, count)
        } else if let Some((row, _)) = self.called_row(x, entity) {
            row.result.is_none() && row.count == count
        } else {
            self.outside_definition(x, entity);
            false
        };
        self.unless(fits, Rule::C2, x.at);
    }

    fn given_type(&self, argument: usize, gives: Gives) -> usize {
        match gives {
            Gives::Value(t) => t,
            Gives::ArgumentBase => self.base(argument).unwrap_or(argument),
        }
    }

    /// The type of a function's value that is called without arguments.
    pub fn function_alone(&mut self, mode: Mode, d: &Designator, entity: Entity) -> Option<usize> {
        let gives = self.function(mode, d, 0, entity)?;
        Some(self.given_type(INTEGER, gives))
    }

    /// What the arguments of a call must satisfy, whatever is broken in its name.
    fn wants_of(&self, entity: Option<Entity>) -> Wants {
        match entity {
            Some(
                Entity::Routine(number) | Entity::Entry(number) | Entity::UnfinishedRoutine(number),
            ) => {
                let RoutineRow { first, count, .. } = self.routines[number];
                Wants::Parameters(first, count)
            }
            Some(Entity::Standard(standard)) => Wants::One(standard),
            _ => Wants::Nothing,
        }
    }

    fn want(&self, wants: Wants, number: usize) -> Option<Want> {
        match wants {
            Wants::One(standard) if number == 0 => standard_want(standard),
            Wants::Parameters(first, count) if number < count => {
                Some(Want::Parameter(self.parameters[first + number]))
            }
            _ => None,
        }
    }

    fn has_form(&mut self, want: Want, e: &Expression) -> bool {
        mode_of(want) != Mode::Variable || self.variable(e)
    }

    fn has_type(&mut self, want: Want, e: &Expression, t: usize) -> Option<usize> {
        let (fits, rule) = match want {
            Want::Parameter(row) if row.by_reference => (row.of == t, Rule::C10),
            Want::Parameter(row) => (self.agree(row.of, t), Rule::C2),
            Want::Simple => (self.is_simple(t), Rule::C2),
            Want::Integer => (self.is_base(INTEGER, t), Rule::C2),
            Want::CharVariable => (self.is_base(CHAR, t), Rule::C2),
            Want::QueueVariable => (t == QUEUE, Rule::C2),
        };
        self.unless(fits, rule, e.at()).then_some(t)
    }

    fn argument(&mut self, want: Option<Want>, e: &Expression<'t>) -> Option<usize> {
        let Some(want) = want else {
            return self.expression(Mode::Value, e);
        };
        let has_form = self.has_form(want, e);
        let t = self.expression(mode_of(want), e)?;
        self.has_type(want, e, t).filter(|_| has_form)
    }

    /// The type of the first argument, if those of all are known, and integer if there are none.
    fn arguments(&mut self, wants: Wants, list: &[Expression<'t>]) -> Option<usize> {
        let mut first = Some(INTEGER);
        for (number, e) in list.iter().enumerate() {
            let t = self.argument(self.want(wants, number), e);
            first = if number == 0 { t } else { t.and(first) };
        }
        first
    }

    /// The type of what the fields and the indices select, whatever the indices are.
    fn part_type(&self, t: usize, selector: &Selector) -> Option<usize> {
        match selector {
            Selector::Field { name, .. } => match self.member(t, name.name) {
                Some(Member::Field(of)) => Some(of),
                _ => None,
            },
            Selector::Indexed(indices) => {
                indices.iter().try_fold(t, |t, _| match self.structure(t) {
                    Structure::Array(_, element) => Some(element),
                    _ => None,
                })
            }
        }
    }

    /// Whether the last name stands for a value, and indices follow.
    fn is_indexed_value(&self, d: &Designator, root: Option<Entity>) -> bool {
        let (mut is_value, mut of) = match root {
            Some(Entity::Constant(..)) => (true, None),
            Some(Entity::Variable(t, _)) => (true, Some(t)),
            _ => (false, None),
        };
        for selector in &d.selectors {
            of = of.and_then(|t| self.part_type(t, selector));
            if let Selector::Field { .. } = selector {
                is_value = of.is_some();
            }
        }
        is_value && matches!(d.selectors.last(), Some(Selector::Indexed(_)))
    }

    /// C2 or C10: an indexed value stands where a routine is wanted.
    fn no_indexed_value(&mut self, rule: Rule, d: &Designator, root: Option<Entity>) -> bool {
        let is_wrong = self.is_indexed_value(d, root);
        self.unless(!is_wrong, rule, d.last_name().at)
    }

    /// The type of a call of a function with arguments.
    pub fn call(
        &mut self,
        mode: Mode,
        d: &Designator<'t>,
        list: &[Expression<'t>],
    ) -> Option<usize> {
        let root = self.find(d.root);
        let fits = self.names_fit(mode.of_first_operand(), d, root);
        let no_value = self.no_indexed_value(sort_rule(mode, d), d, root);
        let entity = self.designated(d, root);
        let gives = entity.and_then(|entity| self.function(mode, d, list.len(), entity));
        let t = self.arguments(self.wants_of(entity), list);
        let (gives, t) = gives.zip(t)?;
        (fits && no_value).then(|| self.given_type(t, gives))
    }

    /// Judges a call of a procedure.
    pub fn call_statement(&mut self, d: &Designator<'t>, list: &[Expression<'t>]) {
        let root = self.find(d.root);
        self.names_fit(Mode::Value, d, root);
        self.no_indexed_value(Rule::C2, d, root);
        let entity = self.designated(d, root);
        if let Some(entity) = entity {
            self.procedure(d, list.len(), entity);
        }
        self.arguments(self.wants_of(entity), list);
    }

    /// The name, if the expression is a bare name.
    pub fn name_alone(e: &Expression<'t>) -> Option<Identifier<'t>> {
        designator_of(e)
            .filter(|d| d.selectors.is_empty())
            .map(|d| d.root)
    }
}
