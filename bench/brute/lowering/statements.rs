//! Lowers statements, each before the node that is next after it.

use super::expressions::Calls;
use super::types::Name;
use super::Lowering;
use crate::program::{Action, Counting, Initialised, NodeId, Term};
use crate::tree::{Arm, Assignment, Designator, Direction, Expression, ForHeader, InitItem};
use crate::tree::{Sort, Statement};

/// The test of a loop whose body is still to come.
struct ReservedTest {
    node: NodeId,
    /// The first of its calls, or the test itself.
    first: NodeId,
    condition: Term,
    answers: u32,
}

impl<'t> Lowering<'t> {
    pub fn list(&mut self, statements: &[Statement<'t>], next: NodeId) -> NodeId {
        let reversed = statements.iter().rev();
        reversed.fold(next, |next, statement| self.statement(statement, next))
    }

    fn statement(&mut self, statement: &Statement<'t>, next: NodeId) -> NodeId {
        match statement {
            Statement::Empty => next,
            Statement::Assign(assignment) => self.assignment(assignment, next),
            Statement::Call(designator, arguments) => self.perform(designator, arguments, next),
            Statement::Compound(list) => self.list(list, next),
            Statement::If { condition, then } => {
                let then = self.statement(then, next);
                self.test(condition, then, next)
            }
            Statement::IfElse {
                condition,
                then,
                otherwise,
            } => {
                let then = self.statement(then, next);
                let otherwise = self.statement(otherwise, next);
                self.test(condition, then, otherwise)
            }
            Statement::Case { selector, arms } => self.case(selector, arms, next),
            Statement::While { condition, body } => self.while_loop(condition, body, next),
            Statement::Repeat { body, condition } => self.repeat_loop(body, condition, next),
            Statement::For { header, body } => self.for_loop(header, body, next),
            Statement::Cycle(list) => {
                let cycle = self.reserve();
                let body = self.list(list, cycle);
                self.fill(cycle, Action::Cycle { body }, 0, next)
            }
            Statement::Init { items, .. } => {
                let reversed = items.iter().rev();
                reversed.fold(next, |next, item| self.init(item, next))
            }
        }
    }

    /// A node whose action is still to come.
    fn reserve(&mut self) -> NodeId {
        self.add(Action::EndProcess, 0, 0, 0)
    }

    /// Gives a reserved node its action, which uses up all answers of its statement.
    fn fill(&mut self, node: NodeId, action: Action, answers: u32, next: NodeId) -> NodeId {
        let node_of = &mut self.program.nodes[node as usize];
        node_of.action = action;
        node_of.answers = answers;
        node_of.operands = answers;
        node_of.next = next;
        node
    }

    /// Adds an action, and its calls before it.
    fn act(&mut self, action: Action, calls: Calls, next: NodeId) -> NodeId {
        let answers = calls.answers;
        let last = self.add(action, answers, answers, next);
        self.before(last, calls)
    }

    fn assignment(&mut self, assignment: &Assignment<'t>, next: NodeId) -> NodeId {
        let mut calls = Calls::default();
        let (target, of) = self.place(&assignment.target, &mut calls);
        let action = match of.simple() {
            Some((bounds, _)) => {
                let (value, _) = self.value(&assignment.value, &mut calls);
                Action::Assign(target, bounds, value)
            }
            None => {
                let (source, _) = self.place_of(&assignment.value, &mut calls);
                Action::Copy(target, source, of.words())
            }
        };
        self.act(action, calls, next)
    }

    fn test(&mut self, condition: &Expression<'t>, then: NodeId, otherwise: NodeId) -> NodeId {
        let mut calls = Calls::default();
        let (condition, _) = self.value(condition, &mut calls);
        let action = Action::Test {
            condition,
            then,
            otherwise,
        };
        self.act(action, calls, otherwise)
    }

    fn case(&mut self, selector: &Expression<'t>, arms: &[Arm<'t>], next: NodeId) -> NodeId {
        let lowered = arms.iter().map(|arm| {
            let labels = arm.labels.iter().map(|label| self.scope.constant(label).1);
            let labels = labels.collect();
            (labels, self.statement(&arm.body, next))
        });
        let arms = lowered.collect();
        let mut calls = Calls::default();
        let (selector, _) = self.value(selector, &mut calls);
        self.act(Action::Case { selector, arms }, calls, next)
    }

    /// Reserves the test of a loop, and adds the calls before it.
    fn reserve_test(&mut self, condition: &Expression<'t>) -> ReservedTest {
        let mut calls = Calls::default();
        let (condition, _) = self.value(condition, &mut calls);
        let answers = calls.answers;
        let node = self.reserve();
        ReservedTest {
            node,
            first: self.before(node, calls),
            condition,
            answers,
        }
    }

    fn fill_test(&mut self, test: ReservedTest, then: NodeId, otherwise: NodeId) {
        let action = Action::Test {
            condition: test.condition,
            then,
            otherwise,
        };
        self.fill(test.node, action, test.answers, otherwise);
    }

    fn while_loop(
        &mut self,
        condition: &Expression<'t>,
        body: &Statement<'t>,
        next: NodeId,
    ) -> NodeId {
        let test = self.reserve_test(condition);
        let first = test.first;
        let body = self.statement(body, first);
        self.fill_test(test, body, next);
        first
    }

    fn repeat_loop(
        &mut self,
        body: &[Statement<'t>],
        condition: &Expression<'t>,
        next: NodeId,
    ) -> NodeId {
        let test = self.reserve_test(condition);
        let body = self.list(body, test.first);
        self.fill_test(test, next, body);
        body
    }

    fn counting(&mut self, name: Name<'t>, is_down: bool, body: NodeId) -> Counting {
        let (variable, of) = self.variable(name).expect("a variable");
        let (bounds, _) = of.simple().expect("a simple variable");
        Counting {
            variable,
            bounds,
            is_down,
            body,
        }
    }

    fn for_loop(&mut self, header: &ForHeader<'t>, body: &Statement<'t>, next: NodeId) -> NodeId {
        let again = self.reserve();
        let body = self.statement(body, again);
        let is_down = matches!(header.direction, Direction::Down);
        let counting = self.counting(header.variable.name, is_down, body);
        self.fill(again, Action::ForNext(counting), 0, next);
        let mut calls = Calls::default();
        let (first, _) = self.value(&header.from, &mut calls);
        let (last, _) = self.value(&header.last, &mut calls);
        let action = Action::For {
            counting: self.counting(header.variable.name, is_down, body),
            first,
            last,
        };
        self.act(action, calls, next)
    }

    fn init(&mut self, item: &InitItem<'t>, next: NodeId) -> NodeId {
        let found = self.system.component(item.component.name);
        let (variable, system, _) = found.expect("a component");
        let component = match system.sort {
            Sort::Class => Initialised::Class {
                offset: variable.offset,
                body: system.body,
            },
            Sort::Monitor => Initialised::Monitor {
                number: self.number(variable),
                body: system.body,
            },
            Sort::Process => Initialised::Process {
                number: self.number(variable),
            },
        };
        let mut calls = Calls::default();
        let arguments = self.call_arguments(&system.parameters, &item.arguments, &mut calls);
        self.act(Action::Init(component, arguments), calls, next)
    }

    fn perform(
        &mut self,
        designator: &Designator<'t>,
        arguments: &[Expression<'t>],
        next: NodeId,
    ) -> NodeId {
        let mut calls = Calls::default();
        if self.user_call(designator, arguments, &mut calls).is_some() {
            return self.before(next, calls);
        }
        let Some(argument) = arguments.first() else {
            self.uses_clock = true;
            return next;
        };
        let action = match designator.root.name {
            b"display" => Action::Display(self.value(argument, &mut calls).0),
            b"accept" => {
                let (target, of) = self.place_of(argument, &mut calls);
                let (bounds, _) = of.simple().expect("a character");
                Action::Accept(target, bounds)
            }
            b"delay" => Action::Delay(self.place_of(argument, &mut calls).0),
            _ => Action::Continue(self.place_of(argument, &mut calls).0),
        };
        self.act(action, calls, next)
    }
}
