//! What written types and constants represent, and the layout of their words.

use crate::program::{Bounds, NodeId, Word};
use crate::tree::{Constant, Fields, Identifier, Parameters, Sort, TypeExpression};
use std::collections::HashMap;
use std::rc::Rc;

pub type Name<'t> = &'t [u8];

pub const INTEGER: Bounds = Bounds {
    low: -32_768,
    high: 32_767,
};
pub const BOOLEAN: Bounds = Bounds { low: 0, high: 1 };
pub const CHAR: Bounds = Bounds { low: 0, high: 127 };

#[derive(Clone)]
pub enum Type<'t> {
    Simple {
        base: Bounds,
        bounds: Bounds,
        start: i32,
    },
    Array(Bounds, Rc<Type<'t>>),
    Record(Rc<[(Name<'t>, Type<'t>)]>),
    Queue,
    Component(Rc<System<'t>>),
}

/// A variable or parameter, so many words after the first of its component or activation.
#[derive(Clone)]
pub struct Variable<'t> {
    pub name: Name<'t>,
    pub by_reference: bool,
    pub of: Type<'t>,
    pub offset: u32,
}

pub struct Routine<'t> {
    pub name: Name<'t>,
    pub unit: u32,
    pub parameters: Vec<Variable<'t>>,
    pub result: Option<Type<'t>>,
}

pub struct System<'t> {
    pub sort: Sort,
    pub parameters: Vec<Variable<'t>>,
    pub variables: Vec<Variable<'t>>,
    pub routines: Vec<Rc<Routine<'t>>>,
    pub body: NodeId,
}

/// The constants, with their base types, and the types of the outermost scope.
pub struct Scope<'t> {
    pub constants: HashMap<Name<'t>, (Bounds, i32)>,
    pub types: HashMap<Name<'t>, Type<'t>>,
}

pub fn whole(base: Bounds) -> Type<'static> {
    Type::Simple {
        base,
        bounds: base,
        start: 0,
    }
}

fn total<'a, 't: 'a>(types: impl Iterator<Item = &'a Type<'t>>) -> u32 {
    types.map(Type::words).sum()
}

impl<'t> Type<'t> {
    /// The words of a variable in its owner. Processes and monitors are owners themselves.
    pub fn words(&self) -> u32 {
        match self {
            Type::Simple { .. } | Type::Queue => 1,
            Type::Array(bounds, element) => (bounds.high - bounds.low + 1) as u32 * element.words(),
            Type::Record(fields) => total(fields.iter().map(|(_, of)| of)),
            Type::Component(system) if system.sort == Sort::Class => {
                system.first_offset() + system.own_words()
            }
            Type::Component(_) => 0,
        }
    }

    /// Adds the words of a variable at the start.
    pub fn start(&self, words: &mut Vec<Word>) {
        match self {
            Type::Simple { start, .. } => words.push(Word::reported(*start)),
            Type::Array(bounds, element) => {
                (bounds.low..=bounds.high).for_each(|_| element.start(words))
            }
            Type::Record(fields) => fields.iter().for_each(|(_, of)| of.start(words)),
            Type::Queue => words.push(Word::reported(0)),
            Type::Component(system) if system.sort == Sort::Class => {
                words.push(Word::hidden());
                words.extend(system.starts());
            }
            Type::Component(_) => {}
        }
    }

    /// The bounds and the base of a simple type.
    pub fn simple(&self) -> Option<(Bounds, Bounds)> {
        match self {
            Type::Simple { base, bounds, .. } => Some((*bounds, *base)),
            _ => None,
        }
    }

    /// The offset and the type of a field.
    pub fn field(&self, name: Name) -> (u32, Type<'t>) {
        let Type::Record(fields) = self else {
            unreachable!("a field of a record")
        };
        let number = fields.iter().position(|(x, _)| *x == name);
        let number = number.expect("a field of the record");
        let before = total(fields[..number].iter().map(|(_, of)| of));
        (before, fields[number].1.clone())
    }
}

impl<'t> Variable<'t> {
    /// The words of a parameter: a reference or a right has one.
    pub fn parameter_words(&self) -> u32 {
        match self.of {
            Type::Component(_) => 1,
            _ if self.by_reference => 1,
            _ => self.of.words(),
        }
    }
}

impl<'t> System<'t> {
    pub fn new(sort: Sort) -> System<'t> {
        System {
            sort,
            parameters: Vec::new(),
            variables: Vec::new(),
            routines: Vec::new(),
            body: 0,
        }
    }

    /// A class begins with its mark.
    pub fn first_offset(&self) -> u32 {
        u32::from(self.sort == Sort::Class)
    }

    fn own_words(&self) -> u32 {
        let parameters: u32 = self.parameters.iter().map(Variable::parameter_words).sum();
        parameters + total(self.variables.iter().map(|variable| &variable.of))
    }

    /// The words of its parameters and variables at the start.
    pub fn starts(&self) -> Vec<Word> {
        let mut words = Vec::new();
        for parameter in &self.parameters {
            match parameter.of {
                Type::Component(_) => words.push(Word::hidden()),
                _ => parameter.of.start(&mut words),
            }
        }
        for variable in &self.variables {
            variable.of.start(&mut words);
        }
        words
    }

    /// A component that a parameter or variable names, and whether it is a parameter.
    pub fn component(&self, name: Name) -> Option<(&Variable<'t>, Rc<System<'t>>, bool)> {
        let named = |list: &'_ [Variable<'t>]| list.iter().position(|x| x.name == name);
        let (variable, is_parameter) = match named(&self.parameters) {
            Some(number) => (&self.parameters[number], true),
            None => (&self.variables[named(&self.variables)?], false),
        };
        match &variable.of {
            Type::Component(system) => Some((variable, system.clone(), is_parameter)),
            _ => None,
        }
    }

    pub fn routine(&self, name: Name) -> Option<Rc<Routine<'t>>> {
        let found = self.routines.iter().find(|routine| routine.name == name);
        found.cloned()
    }
}

impl<'t> Scope<'t> {
    pub fn standard() -> Scope<'t> {
        let truths: [(Name, _); 2] = [(b"false", (BOOLEAN, 0)), (b"true", (BOOLEAN, 1))];
        let types: [(Name, _); 4] = [
            (b"integer", whole(INTEGER)),
            (b"boolean", whole(BOOLEAN)),
            (b"char", whole(CHAR)),
            (b"queue", Type::Queue),
        ];
        Scope {
            constants: HashMap::from(truths),
            types: HashMap::from(types),
        }
    }

    pub fn constant(&self, constant: &Constant) -> (Bounds, i32) {
        match *constant {
            Constant::Number { value, .. } => (INTEGER, i32::from(value)),
            Constant::Negative { value, .. } => (INTEGER, -i32::from(value)),
            Constant::Character { ordinal, .. } => (CHAR, i32::from(ordinal)),
            Constant::Named(x) => self.constants[x.name],
        }
    }

    fn array(&self, indices: &[TypeExpression<'t>], element: &TypeExpression<'t>) -> Type<'t> {
        let inner = self.resolve(element);
        indices.iter().rev().fold(inner, |of, index| {
            let (bounds, _) = self.resolve(index).simple().expect("a simple index type");
            Type::Array(bounds, Rc::new(of))
        })
    }

    /// A subrange starts at its lower bound.
    fn subrange(&self, low: &Constant, high: &Constant) -> Type<'t> {
        let (base, low) = self.constant(low);
        let (_, high) = self.constant(high);
        Type::Simple {
            base,
            bounds: Bounds { low, high },
            start: low,
        }
    }

    pub fn resolve(&self, written: &TypeExpression<'t>) -> Type<'t> {
        match written {
            TypeExpression::Named(x) => self.named(x),
            TypeExpression::Subrange(low, high) => self.subrange(low, high),
            TypeExpression::Array {
                indices, element, ..
            } => self.array(indices, element),
            TypeExpression::Record { groups, .. } => Type::Record(
                groups
                    .iter()
                    .flat_map(|group| {
                        let of = self.resolve(&group.of);
                        group.names.iter().map(move |x| (x.name, of.clone()))
                    })
                    .collect(),
            ),
        }
    }

    pub fn named(&self, x: &Identifier<'t>) -> Type<'t> {
        self.types[x.name].clone()
    }

    /// Adds the parameters of a heading from this offset on.
    pub fn parameters(&self, groups: &[Parameters<'t>], mut offset: u32) -> Vec<Variable<'t>> {
        let mut list = Vec::new();
        for group in groups {
            for x in &group.names {
                let parameter = Variable {
                    name: x.name,
                    by_reference: group.by_reference.is_some(),
                    of: self.named(&group.of),
                    offset,
                };
                offset += parameter.parameter_words();
                list.push(parameter);
            }
        }
        list
    }

    /// Adds variables from this offset on.
    pub fn variables(&self, groups: &[Fields<'t>], mut offset: u32) -> Vec<Variable<'t>> {
        let mut list = Vec::new();
        for group in groups {
            let of = self.resolve(&group.of);
            for x in &group.names {
                list.push(Variable {
                    name: x.name,
                    by_reference: false,
                    of: of.clone(),
                    offset,
                });
                offset += of.words();
            }
        }
        list
    }
}
