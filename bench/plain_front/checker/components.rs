//! The statement `init`: components and their arguments.

use super::designators::{designator_of, Mode};
use super::environment::{Access, Entity, Part, SystemRow};
use super::{Checker, Rule};
use crate::tree::{Designator, Expression, Identifier, InitItem, Sort};

impl<'t> Checker<'t> {
    /// The row of a component of this component. C12: the name is none.
    fn own_component(&mut self, x: Identifier, entity: Entity) -> Option<SystemRow> {
        if let Entity::Variable(t, access) = entity {
            if let (Access::Own, Some(number)) = (access, self.system(t)) {
                return Some(self.systems[number]);
            }
        }
        self.anywhere(x, entity);
        self.breaks(Rule::C12, x.at)
    }

    /// The component that is initialised. C12: the number of arguments is wrong.
    fn component(&mut self, x: Identifier, count: usize) -> Option<SystemRow> {
        let entity = self.named(x)?;
        self.queue_in_place(Mode::Value, x, Some(entity));
        let row = self.own_component(x, entity)?;
        self.unless(row.count == count, Rule::C12, x.at);
        if row.sort != Sort::Process {
            self.note_need(row.need);
        }
        Some(row)
    }

    fn unwanted_designator(&mut self, d: &Designator<'t>) {
        let root = self.find(d.root);
        self.names_fit(Mode::Value, d, root);
        if let Some(entity) = self.designated(d, root) {
            self.anywhere(d.last_name(), entity);
        }
    }

    /// Judges an argument without requirements.
    fn unwanted_argument(&mut self, e: &Expression<'t>) {
        match designator_of(e) {
            Some(d) => self.unwanted_designator(d),
            None => {
                self.expression(Mode::Value, e);
            }
        }
    }

    /// C12: a name isn't that of a component of this type.
    fn passed_name(&mut self, wanted: usize, x: Identifier) {
        let Some(entity) = self.named(x) else {
            return;
        };
        self.queue_in_place(Mode::Value, x, Some(entity));
        let fits = matches!(entity, Entity::Variable(t, _) if t == wanted);
        self.anywhere(x, entity);
        self.unless(fits, Rule::C12, x.at);
    }

    fn component_argument(&mut self, wanted: usize, e: &Expression<'t>) {
        match Self::name_alone(e) {
            Some(x) => self.passed_name(wanted, x),
            None => {
                self.tell(Rule::C12, e.at());
                self.unwanted_argument(e);
            }
        }
    }

    fn simple_argument(&mut self, wanted: usize, e: &Expression<'t>) {
        if let Some(t) = self.expression(Mode::Value, e) {
            let agree = self.agree(wanted, t);
            self.unless(agree, Rule::C12, e.at());
        }
    }

    fn init_argument(&mut self, wanted: Option<usize>, e: &Expression<'t>) {
        match wanted {
            None => self.unwanted_argument(e),
            Some(t) if self.system(t).is_some() => self.component_argument(t, e),
            Some(t) => self.simple_argument(t, e),
        }
    }

    fn init_item(&mut self, item: &InitItem<'t>) {
        let row = self.component(item.component, item.arguments.len());
        for (number, e) in item.arguments.iter().enumerate() {
            let wanted = row
                .filter(|row| number < row.count)
                .map(|row| self.parameters[row.first + number].of);
            self.init_argument(wanted, e);
        }
    }

    /// C12: `init` inside a routine, or a wrong item.
    pub fn init(&mut self, at: u32, items: &[InitItem<'t>]) {
        self.unless(self.region.part == Part::Body, Rule::C12, at);
        items.iter().for_each(|item| self.init_item(item));
    }
}
