//! Lowers expressions, designators and calls.
//!
//! The calls of a statement become nodes of their own, leftmost and innermost first. The
//! term has the answer in place of the call.

use super::types::{Name, Routine, Type, Variable, BOOLEAN, CHAR, INTEGER};
use super::Lowering;
use crate::program::{Action, Argument, Bounds, Index, NodeId, Operator, Root, Spot, Target, Term};
use crate::tree::{Designator, Expression, Operator as Written, Selector, Sign, Sort};
use std::rc::Rc;

/// A call that is still without a node.
struct Call {
    action: Action,
    /// The number of answers before it, and how many its arguments use up.
    answers: u32,
    operands: u32,
}

/// The calls of a statement, and the number of answers that they leave.
#[derive(Default)]
pub struct Calls {
    list: Vec<Call>,
    pub answers: u32,
}

/// A term and the base type of its value.
type Typed = (Term, Bounds);

fn boxed((term, _): Typed) -> Box<Term> {
    Box::new(term)
}

/// An operator, and the base type of what it gives.
fn operator(written: Written) -> (Operator, Bounds) {
    match written {
        Written::Equal => (Operator::Equal, BOOLEAN),
        Written::Unequal => (Operator::Unequal, BOOLEAN),
        Written::Less => (Operator::Less, BOOLEAN),
        Written::Greater => (Operator::Greater, BOOLEAN),
        Written::AtMost => (Operator::AtMost, BOOLEAN),
        Written::AtLeast => (Operator::AtLeast, BOOLEAN),
        Written::And => (Operator::And, BOOLEAN),
        Written::Or => (Operator::Or, BOOLEAN),
        Written::Add => (Operator::Add, INTEGER),
        Written::Subtract => (Operator::Subtract, INTEGER),
        Written::Multiply => (Operator::Multiply, INTEGER),
        Written::Divide => (Operator::Divide, INTEGER),
        Written::Modulo => (Operator::Modulo, INTEGER),
    }
}

/// The designator that an expression is, in whatever parentheses.
fn designator_of<'a, 't>(expression: &'a Expression<'t>) -> &'a Designator<'t> {
    match expression {
        Expression::Designated(designator) => designator,
        Expression::Parenthesized { inner, .. } => designator_of(inner),
        _ => unreachable!("a variable"),
    }
}

impl<'t> Lowering<'t> {
    // ---- Names and places

    fn local(&self, name: Name) -> Option<&Variable<'t>> {
        self.locals.iter().find(|x| x.name == name)
    }

    /// The variable or parameter that a name means, if it means one.
    pub fn variable(&self, name: Name) -> Option<(Spot, Type<'t>)> {
        let of_component = || {
            let system = &self.system;
            let mut all = system.parameters.iter().chain(&system.variables);
            all.find(|x| x.name == name)
        };
        let (variable, root) = match self.local(name) {
            Some(x) => (x, Root::Local(x.offset)),
            None => of_component().map(|x| (x, Root::Member(x.offset)))?,
        };
        let spot = Spot {
            root,
            is_reference: variable.by_reference,
            offset: 0,
            indices: Vec::new(),
        };
        Some((spot, variable.of.clone()))
    }

    /// The place that a designator has.
    pub fn place(&mut self, designator: &Designator<'t>, calls: &mut Calls) -> (Spot, Type<'t>) {
        let found = self.variable(designator.root.name);
        let (mut spot, mut of) = found.expect("a variable");
        for selector in &designator.selectors {
            match selector {
                Selector::Field { name, .. } => {
                    let (offset, field) = of.field(name.name);
                    spot.offset += offset;
                    of = field;
                }
                Selector::Indexed(indices) => {
                    for index in indices {
                        let Type::Array(bounds, element) = of else {
                            unreachable!("an array")
                        };
                        let (value, _) = self.value(&index.value, calls);
                        let size = element.words();
                        spot.indices.push(Index {
                            value,
                            bounds,
                            size,
                        });
                        of = (*element).clone();
                    }
                }
            }
        }
        (spot, of)
    }

    pub fn place_of(&mut self, expression: &Expression<'t>, calls: &mut Calls) -> (Spot, Type<'t>) {
        self.place(designator_of(expression), calls)
    }

    // ---- Calls

    /// The routine that a designator calls, and its component.
    pub fn callee(&self, designator: &Designator<'t>) -> Option<(Target, Rc<Routine<'t>>)> {
        let root = designator.root.name;
        match designator.selectors.as_slice() {
            [] if self.local(root).is_none() => Some((Target::Own, self.system.routine(root)?)),
            [Selector::Field { name, .. }] => {
                let (variable, system, is_parameter) = self.system.component(root)?;
                let target = match (system.sort, is_parameter) {
                    (Sort::Class, false) => Target::ClassVariable(variable.offset),
                    (Sort::Class, true) => Target::ClassRight(variable.offset),
                    (_, true) => Target::MonitorRight(variable.offset),
                    (_, false) => Target::Monitor(self.number(variable)),
                };
                Some((target, system.routine(name.name)?))
            }
            _ => None,
        }
    }

    pub fn call_arguments(
        &mut self,
        parameters: &[Variable<'t>],
        arguments: &[Expression<'t>],
        calls: &mut Calls,
    ) -> Vec<Argument> {
        let pairs = parameters.iter().zip(arguments);
        pairs
            .map(|(parameter, argument)| self.argument(parameter, argument, calls))
            .collect()
    }

    fn argument(
        &mut self,
        parameter: &Variable<'t>,
        argument: &Expression<'t>,
        calls: &mut Calls,
    ) -> Argument {
        if parameter.by_reference {
            return Argument::Reference(self.place_of(argument, calls).0);
        }
        match (&parameter.of, parameter.of.simple()) {
            (Type::Component(_), _) => self.right(argument),
            (_, Some((bounds, _))) => Argument::Value(self.value(argument, calls).0, bounds),
            (of, None) => Argument::Copy(self.place_of(argument, calls).0, of.words()),
        }
    }

    /// A right to the component that an argument of `init` names.
    fn right(&self, argument: &Expression<'t>) -> Argument {
        let name = designator_of(argument).root.name;
        let found = self.system.component(name);
        let (variable, system, is_parameter) = found.expect("a component");
        match (system.sort, is_parameter) {
            (_, true) => Argument::Right(variable.offset),
            (Sort::Class, false) => Argument::Class(variable.offset),
            (_, false) => Argument::Monitor(self.number(variable)),
        }
    }

    /// Lowers the call of a user's routine, if the designator names one. Returns the routine.
    pub fn user_call(
        &mut self,
        designator: &Designator<'t>,
        arguments: &[Expression<'t>],
        calls: &mut Calls,
    ) -> Option<Rc<Routine<'t>>> {
        let (target, routine) = self.callee(designator)?;
        let before = calls.answers;
        let arguments = self.call_arguments(&routine.parameters, arguments, calls);
        calls.list.push(Call {
            action: Action::Call {
                target,
                unit: routine.unit,
                arguments,
            },
            answers: calls.answers,
            operands: calls.answers - before,
        });
        calls.answers = before;
        Some(routine)
    }

    /// The answer of a function that a designator calls, if it does.
    fn answer(
        &mut self,
        designator: &Designator<'t>,
        arguments: &[Expression<'t>],
        calls: &mut Calls,
    ) -> Option<Typed> {
        let routine = self.user_call(designator, arguments, calls)?;
        let (_, base) = routine.result.as_ref()?.simple()?;
        calls.answers += 1;
        Some((Term::Answer(calls.answers - 1), base))
    }

    /// Adds the nodes of calls before a node, and returns the first one.
    pub fn before(&mut self, last: NodeId, calls: Calls) -> NodeId {
        let list = calls.list.into_iter().rev();
        list.fold(last, |next, call| {
            self.add(call.action, call.answers, call.operands, next)
        })
    }

    // ---- Values

    pub fn value(&mut self, expression: &Expression<'t>, calls: &mut Calls) -> Typed {
        match expression {
            Expression::Number { value, .. } => (Term::Constant(i32::from(*value)), INTEGER),
            Expression::Character { ordinal, .. } => (Term::Constant(i32::from(*ordinal)), CHAR),
            Expression::Designated(designator) => self.use_of(designator, calls),
            Expression::Call(designator, arguments) => {
                let answer = self.answer(designator, arguments, calls);
                answer.unwrap_or_else(|| self.standard(designator, &arguments[0], calls))
            }
            Expression::Parenthesized { inner, .. } => self.value(inner, calls),
            Expression::Not { operand, .. } => {
                (Term::Not(boxed(self.value(operand, calls))), BOOLEAN)
            }
            Expression::Signed { sign, operand, .. } => match sign {
                Sign::Plus => self.value(operand, calls),
                Sign::Minus => (Term::Negative(boxed(self.value(operand, calls))), INTEGER),
            },
            Expression::Chain { first, rest } => {
                let first = self.value(first, calls);
                rest.iter().fold(first, |left, operation| {
                    let right = boxed(self.value(&operation.operand, calls));
                    let (operator, base) = operator(operation.operator);
                    (Term::Binary(operator, boxed(left), right), base)
                })
            }
        }
    }

    fn use_of(&mut self, designator: &Designator<'t>, calls: &mut Calls) -> Typed {
        if let Some(answer) = self.answer(designator, &[], calls) {
            return answer;
        }
        let name = designator.root.name;
        if name == b"realtime" {
            self.uses_clock = true;
            return (Term::Constant(0), INTEGER);
        }
        if self.variable(name).is_none() {
            let (base, ordinal) = self.scope.constants[name];
            return (Term::Constant(ordinal), base);
        }
        let (spot, of) = self.place(designator, calls);
        let (_, base) = of.simple().expect("a simple value");
        (Term::Variable(spot), base)
    }

    fn standard(
        &mut self,
        designator: &Designator<'t>,
        argument: &Expression<'t>,
        calls: &mut Calls,
    ) -> Typed {
        let name = designator.root.name;
        if name == b"empty" {
            return (Term::Empty(self.place_of(argument, calls).0), BOOLEAN);
        }
        let (term, base) = self.value(argument, calls);
        match name {
            b"abs" => (Term::Abs(Box::new(term)), INTEGER),
            b"succ" => (Term::Shift(Box::new(term), 1, base), base),
            b"pred" => (Term::Shift(Box::new(term), -1, base), base),
            b"ord" => (term, INTEGER),
            _ => (Term::Chr(Box::new(term)), CHAR),
        }
    }
}
