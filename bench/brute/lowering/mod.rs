//! Lowers the tree of an accepted program to nodes, terms and offsets.

mod expressions;
mod statements;
mod types;

use crate::program::{Action, Bounds, Node, NodeId, Process, Program, Unit, Word};
use crate::tree::{Body, ConstantDefinition, Defined, Fields, Identifier, Parameters, Section};
use crate::tree::{Sort, System as SystemTree, Tree, TypeDefinition};
use std::rc::Rc;
use types::{whole, Routine, Scope, System, Type, Variable};

/// The word of a function's result that was never set.
pub const UNSET: i32 = i32::MIN;

/// The number of the first process that a program declares.
const FIRST_PROCESS: u32 = 2;

struct Lowering<'t> {
    scope: Scope<'t>,
    program: Program,
    /// What has been lowered of the component whose code is lowered.
    system: System<'t>,
    /// The parameters, variables and result of the routine whose code is lowered.
    locals: Vec<Variable<'t>>,
    uses_clock: bool,
}

/// Lowers a program, unless it uses the clock.
pub fn lower(tree: &Tree, inputs: &[Vec<u8>]) -> Option<Program> {
    let mut lowering = Lowering {
        scope: Scope::standard(),
        program: Program {
            nodes: Vec::new(),
            units: Vec::new(),
            processes: Vec::new(),
            monitors: Vec::new(),
            shared: Vec::new(),
        },
        system: System::new(Sort::Process),
        locals: Vec::new(),
        uses_clock: false,
    };
    lowering.whole(tree, inputs);
    (!lowering.uses_clock).then_some(lowering.program)
}

/// The number of components of a sort among variables.
fn count(sort: Sort, variables: &[Variable]) -> u32 {
    let is_counted =
        |x: &&Variable| matches!(&x.of, Type::Component(system) if system.sort == sort);
    variables.iter().filter(is_counted).count() as u32
}

impl<'t> Lowering<'t> {
    fn whole(&mut self, tree: &Tree<'t>, inputs: &[Vec<u8>]) {
        for section in &tree.sections {
            self.section(section);
        }
        self.system = System::new(Sort::Process);
        self.system.variables = self.scope.variables(&tree.variables, 0);
        for routine in &tree.routines {
            self.routine(routine);
        }
        let start = self.body(&tree.body, Action::EndProcess);
        self.add_process(start, self.system.starts(), inputs);
        for variable in self.system.variables.clone() {
            if let Type::Component(system) = &variable.of {
                self.add_component(system, inputs);
            }
        }
    }

    fn section(&mut self, section: &Section<'t>) {
        match section {
            Section::Constants(list) => list.iter().for_each(|x| self.define_constant(x)),
            Section::Types(list) => list.iter().for_each(|x| self.define_type(x)),
        }
    }

    fn define_constant(&mut self, definition: &ConstantDefinition<'t>) {
        let value = self.scope.constant(&definition.value);
        self.scope.constants.insert(definition.name.name, value);
    }

    fn define_type(&mut self, definition: &TypeDefinition<'t>) {
        let of = match &definition.defined {
            Defined::Written(written) => self.scope.resolve(written),
            Defined::Enumeration(names) => self.enumeration(names),
            Defined::System(system) => Type::Component(self.define_system(system)),
        };
        self.scope.types.insert(definition.name.name, of);
    }

    fn enumeration(&mut self, names: &[Identifier<'t>]) -> Type<'t> {
        let base = Bounds {
            low: 0,
            high: names.len() as i32 - 1,
        };
        for (ordinal, x) in names.iter().enumerate() {
            self.scope.constants.insert(x.name, (base, ordinal as i32));
        }
        whole(base)
    }

    fn define_system(&mut self, tree: &SystemTree<'t>) -> Rc<System<'t>> {
        let mut system = System::new(tree.sort);
        let first = system.first_offset();
        system.parameters = self.scope.parameters(&tree.parameters, first);
        let own: u32 = system
            .parameters
            .iter()
            .map(Variable::parameter_words)
            .sum();
        system.variables = self.scope.variables(&tree.variables, first + own);
        self.system = system;
        for routine in &tree.routines {
            self.routine(routine);
        }
        let end = match tree.sort {
            Sort::Process => Action::EndProcess,
            Sort::Monitor | Sort::Class => Action::EndBody,
        };
        self.system.body = self.body(&tree.body, end);
        let finished = std::mem::replace(&mut self.system, System::new(Sort::Process));
        Rc::new(finished)
    }

    /// The parameters, variables and result of a routine, and the number of its parameters' words.
    fn heading(
        &self,
        parameters: &[Parameters<'t>],
        variables: &[Fields<'t>],
    ) -> (Vec<Variable<'t>>, Vec<Variable<'t>>, u32) {
        let parameters = self.scope.parameters(parameters, 0);
        let words = parameters.iter().map(Variable::parameter_words).sum();
        let variables = self.scope.variables(variables, words);
        (parameters, variables, words)
    }

    fn routine(&mut self, tree: &crate::tree::Routine<'t>) {
        let (parameters, variables, words) = self.heading(&tree.parameters, &tree.variables);
        let mut starts = Vec::new();
        variables.iter().for_each(|x| x.of.start(&mut starts));
        let mut starts: Vec<i32> = starts.iter().map(|word| word.value).collect();
        self.locals = [parameters.clone(), variables].concat();
        let result = tree.result_type.as_ref().map(|x| self.scope.named(x));
        let place = result.as_ref().map(|_| words + starts.len() as u32);
        if let (Some(of), Some(offset)) = (&result, place) {
            starts.push(UNSET);
            self.locals.push(Variable {
                name: tree.name.name,
                by_reference: false,
                of: of.clone(),
                offset,
            });
        }
        let start = self.body(&tree.body, Action::EndCall(place));
        self.locals.clear();
        let unit = self.program.units.len() as u32;
        self.program.units.push(Unit {
            start,
            starts,
            result: place,
        });
        self.system.routines.push(Rc::new(Routine {
            name: tree.name.name,
            unit,
            parameters,
            result,
        }));
    }

    /// The first node of a body, which this action ends.
    fn body(&mut self, body: &Body<'t>, end: Action) -> NodeId {
        let end = self.add(end, 0, 0, 0);
        self.list(&body.statements, end)
    }

    fn add(&mut self, action: Action, answers: u32, operands: u32, next: NodeId) -> NodeId {
        self.program.nodes.push(Node {
            action,
            answers,
            operands,
            next,
        });
        self.program.nodes.len() as u32 - 1
    }

    fn add_component(&mut self, system: &System<'t>, inputs: &[Vec<u8>]) {
        match system.sort {
            Sort::Process => self.add_process(system.body, system.starts(), inputs),
            Sort::Monitor => {
                self.program.monitors.push(self.program.shared.len() as u32);
                self.program.shared.extend(system.starts());
            }
            Sort::Class => {}
        }
    }

    fn add_process(&mut self, start: NodeId, words: Vec<Word>, inputs: &[Vec<u8>]) {
        let input = inputs.get(self.program.processes.len()).cloned();
        self.program.processes.push(Process {
            start,
            words,
            input: input.unwrap_or_default(),
        });
    }

    /// The number of a monitor or process that the initial process declares.
    fn number(&self, x: &Variable) -> u32 {
        let Type::Component(system) = &x.of else {
            unreachable!("a component")
        };
        let variables = &self.system.variables;
        let place = variables.iter().position(|y| y.name == x.name);
        let before = count(system.sort, &variables[..place.expect("a variable")]);
        match system.sort {
            Sort::Process => FIRST_PROCESS + before,
            Sort::Monitor | Sort::Class => 1 + before,
        }
    }
}
