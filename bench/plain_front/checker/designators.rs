//! Designators: what they stand for, and their types as values or variables.

use super::environment::{Access, Entity, Member, Part, Standard, Structure};
use super::{Checker, Rule};
use crate::tree::{Designator, Expression, Identifier, Index, Selector, Sort};

/// How the first name of an expression is judged.
#[derive(Clone, Copy, PartialEq, Eq)]
pub enum Mode {
    Value,
    /// As something that should be a variable.
    Variable,
    /// As the first operand of something that should be a variable.
    FirstOperand,
    /// As an argument that may be a queue.
    Queue,
}

impl Mode {
    /// How the first operand is judged, or the name of a call.
    pub fn of_first_operand(self) -> Mode {
        match self {
            Mode::Queue | Mode::Value => Mode::Value,
            Mode::Variable | Mode::FirstOperand => Mode::FirstOperand,
        }
    }

    fn wants_variable(self) -> bool {
        matches!(self, Mode::Variable | Mode::FirstOperand)
    }
}

/// The rule that is broken if the last name is of another sort than is wanted.
pub fn sort_rule(mode: Mode, d: &Designator) -> Rule {
    if mode.wants_variable() && !d.has_field() {
        Rule::C10
    } else {
        Rule::C2
    }
}

/// The designator, if the expression is one.
pub fn designator_of<'e, 't>(e: &'e Expression<'t>) -> Option<&'e Designator<'t>> {
    match e {
        Expression::Designated(d) => Some(d),
        _ => None,
    }
}

impl<'t> Checker<'t> {
    /// C4: something is named inside its own definition.
    pub fn outside_definition(&mut self, x: Identifier, entity: Entity) -> bool {
        let unfinished = matches!(
            entity,
            Entity::UnfinishedConstant | Entity::UnfinishedType | Entity::UnfinishedRoutine(_)
        );
        self.unless(!unfinished, Rule::C4, x.at)
    }

    /// C9: a standard name in the wrong place.
    pub fn in_place(&mut self, x: Identifier, standard: Standard) -> bool {
        let (sort, part) = (self.region.sort, self.region.part);
        let allowed = match standard {
            Standard::Delay | Standard::Empty => sort == Sort::Monitor && part != Part::Body,
            Standard::Continue => sort == Sort::Monitor && part == Part::EntryRoutine,
            Standard::Wait => sort == Sort::Process,
            _ => true,
        };
        self.unless(allowed, Rule::C9, x.at)
    }

    /// C4 and C9, which apply to a name everywhere.
    pub fn anywhere(&mut self, x: Identifier, entity: Entity) -> bool {
        match entity {
            Entity::Standard(standard) => self.in_place(x, standard),
            _ => self.outside_definition(x, entity),
        }
    }

    /// C8: a variable with queues is named elsewhere than as an argument for queues.
    pub fn queue_in_place(&mut self, mode: Mode, x: Identifier, entity: Option<Entity>) -> bool {
        match entity {
            Some(Entity::Variable(t, _)) if mode != Mode::Queue => {
                let has_queues = self.has_queues(t);
                self.unless(!has_queues, Rule::C8, x.at)
            }
            _ => true,
        }
    }

    /// C5: a routine after a component's `.` lacks `entry`.
    fn selected_has_entry(&mut self, t: usize, selectors: &[Selector]) -> bool {
        let (Some(Selector::Field { name, .. }), Some(_)) = (selectors.first(), self.system(t))
        else {
            return true;
        };
        match self.member(t, name.name) {
            Some(Member::Routine(number)) => {
                let entry = self.routines[number].entry;
                self.unless(entry, Rule::C5, name.at)
            }
            _ => true,
        }
    }

    /// The rules about the names of a designator, whatever else is broken in it: C2 or C10, C5 and C8.
    pub fn names_fit(&mut self, mode: Mode, d: &Designator, root: Option<Entity>) -> bool {
        match root {
            Some(Entity::Type(_) | Entity::UnfinishedType)
                if matches!(d.selectors.first(), Some(Selector::Indexed(_))) =>
            {
                let rule = if mode.wants_variable() {
                    Rule::C10
                } else {
                    Rule::C2
                };
                self.unless(false, rule, d.root.at)
            }
            Some(Entity::Variable(t, _)) => {
                let has_entry = self.selected_has_entry(t, &d.selectors);
                self.queue_in_place(mode, d.root, root) && has_entry
            }
            _ => true,
        }
    }

    fn selected(&mut self, at: u32, x: Identifier, entity: Entity) -> Option<Entity> {
        let Entity::Variable(t, access) = entity else {
            return self.breaks(Rule::C2, at);
        };
        if !matches!(
            self.structure(t),
            Structure::Record(_) | Structure::System(_)
        ) {
            return self.breaks(Rule::C2, at);
        }
        match self.member(t, x.name) {
            None => self.breaks(Rule::C1, x.at),
            Some(Member::Field(of)) => Some(Entity::Variable(of, access)),
            Some(Member::Routine(number)) => Some(Entity::Entry(number)),
        }
    }

    fn array_part(&mut self, at: u32, entity: Entity) -> Option<(usize, usize, Access)> {
        if let Entity::Variable(t, access) = entity {
            if let Structure::Array(index, element) = self.structure(t) {
                return Some((index, element, access));
            }
        }
        self.breaks(Rule::C2, at)
    }

    fn element(&mut self, i: &Index<'t>, part: Option<Entity>) -> Option<Entity> {
        let array = part.and_then(|entity| self.array_part(i.at, entity));
        let t = self.expression(Mode::Value, &i.value);
        let ((index, element, access), t) = array.zip(t)?;
        if !self.agree(index, t) {
            return self.breaks(Rule::C2, i.value.at());
        }
        Some(Entity::Variable(element, access))
    }

    fn select(&mut self, part: Option<Entity>, selector: &Selector<'t>) -> Option<Entity> {
        match selector {
            Selector::Field { at, name } => {
                part.and_then(|entity| self.selected(*at, *name, entity))
            }
            Selector::Indexed(indices) => {
                indices.iter().fold(part, |part, i| self.element(i, part))
            }
        }
    }

    /// What a designator stands for, given what its first name stands for. What is called is noted with its need.
    pub fn designated(&mut self, d: &Designator<'t>, root: Option<Entity>) -> Option<Entity> {
        let Some(mut entity) = root else {
            self.tell(Rule::C1, d.root.at);
            d.selectors.iter().for_each(|selector| {
                self.select(None, selector);
            });
            return None;
        };
        if !d.selectors.is_empty() {
            let in_place = self.anywhere(d.root, entity);
            let first = in_place.then_some(entity);
            entity = d
                .selectors
                .iter()
                .fold(first, |part, selector| self.select(part, selector))?;
        }
        if let Entity::Routine(number) | Entity::Entry(number) = entity {
            self.note_need(self.routines[number].need);
        }
        Some(entity)
    }

    /// The type of a designator as a value, or where a variable is wanted.
    fn value(&mut self, mode: Mode, d: &Designator, entity: Entity) -> Option<usize> {
        match entity {
            Entity::Constant(base, _) => Some(base),
            Entity::Variable(t, _) if mode == Mode::Variable || self.system(t).is_none() => Some(t),
            Entity::Variable(..) | Entity::Type(_) => {
                self.breaks(sort_rule(mode, d), d.last_name().at)
            }
            Entity::UnfinishedConstant | Entity::UnfinishedType => {
                self.outside_definition(d.last_name(), entity);
                self.breaks(sort_rule(mode, d), d.last_name().at)
            }
            _ if mode == Mode::Variable => {
                self.anywhere(d.root, entity);
                self.breaks(Rule::C10, d.root.at)
            }
            _ => self.function_alone(mode, d, entity),
        }
    }

    pub fn type_of_designator(
        &mut self,
        mode: Mode,
        d: &Designator<'t>,
        root: Option<Entity>,
    ) -> Option<usize> {
        let entity = self.designated(d, root)?;
        self.value(mode, d, entity)
    }

    /// The type of a designator that is an expression.
    pub fn used(&mut self, mode: Mode, d: &Designator<'t>) -> Option<usize> {
        let root = self.find(d.root);
        let fits = self.names_fit(mode, d, root);
        self.type_of_designator(mode, d, root).filter(|_| fits)
    }

    /// Whether this is a variable or a part of one. An unknown name passes, since C1 tells of it.
    pub fn is_variable(&self, entity: Option<Entity>, selectors: &[Selector]) -> bool {
        match entity {
            Some(Entity::Variable(t, access)) => {
                let of_component = self.system(t).is_some()
                    && matches!(selectors.first(), Some(Selector::Field { .. }));
                access != Access::Passive && !of_component
            }
            Some(_) => false,
            None => true,
        }
    }

    /// C10: a designator isn't a variable or a part of one.
    pub fn designates_variable(&mut self, d: &Designator, root: Option<Entity>) -> bool {
        let is_variable = self.is_variable(root, &d.selectors);
        self.unless(is_variable, Rule::C10, d.root.at)
    }

    /// C10: an expression isn't a variable or a part of one.
    pub fn variable(&mut self, e: &Expression) -> bool {
        match designator_of(e) {
            Some(d) => {
                let root = self.find(d.root);
                self.designates_variable(d, root)
            }
            None => self.unless(false, Rule::C10, e.at()),
        }
    }
}
