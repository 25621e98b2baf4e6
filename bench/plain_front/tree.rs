//! The syntax tree of a text. A place is the first byte of a token.

/// A name, as a slice of the text, and its place.
#[derive(Clone, Copy)]
pub struct Identifier<'t> {
    pub name: &'t [u8],
    pub at: u32,
}

#[derive(Clone, Copy)]
pub enum Constant<'t> {
    Number {
        at: u32,
        value: u16,
    },
    /// The place is that of the `-`.
    Negative {
        at: u32,
        value: u16,
    },
    Character {
        at: u32,
        ordinal: u8,
    },
    Named(Identifier<'t>),
}

pub enum TypeExpression<'t> {
    Named(Identifier<'t>),
    Subrange(Constant<'t>, Constant<'t>),
    Array {
        at: u32,
        indices: Vec<TypeExpression<'t>>,
        element: Box<TypeExpression<'t>>,
    },
    Record {
        at: u32,
        groups: Vec<Fields<'t>>,
    },
}

/// Fields or variables of one type.
pub struct Fields<'t> {
    pub names: Vec<Identifier<'t>>,
    pub of: TypeExpression<'t>,
}

#[derive(Clone, Copy)]
pub enum Operator {
    Equal,
    Unequal,
    Less,
    Greater,
    AtMost,
    AtLeast,
    Add,
    Subtract,
    Or,
    Multiply,
    Divide,
    Modulo,
    And,
}

#[derive(Clone, Copy)]
#[allow(dead_code)]
pub enum Sign {
    Plus,
    Minus,
}

#[allow(dead_code)]
pub enum Expression<'t> {
    Number {
        at: u32,
        value: u16,
    },
    Character {
        at: u32,
        ordinal: u8,
    },
    Designated(Designator<'t>),
    Call(Designator<'t>, Vec<Expression<'t>>),
    Parenthesized {
        at: u32,
        inner: Box<Expression<'t>>,
    },
    Not {
        at: u32,
        operand: Box<Expression<'t>>,
    },
    Signed {
        sign: Sign,
        at: u32,
        operand: Box<Expression<'t>>,
    },
    /// Operands with operators between them, which group to the left.
    Chain {
        first: Box<Expression<'t>>,
        rest: Vec<Operation<'t>>,
    },
}

pub struct Operation<'t> {
    pub operator: Operator,
    pub at: u32,
    pub operand: Expression<'t>,
}

pub struct Designator<'t> {
    pub root: Identifier<'t>,
    pub selectors: Vec<Selector<'t>>,
}

pub enum Selector<'t> {
    /// The place is that of the `.`.
    Field {
        at: u32,
        name: Identifier<'t>,
    },
    Indexed(Vec<Index<'t>>),
}

/// The place is that of the `[` or the `,` before the index.
pub struct Index<'t> {
    pub at: u32,
    pub value: Expression<'t>,
}

#[derive(Clone, Copy)]
pub enum Direction {
    Up,
    Down,
}

pub struct Assignment<'t> {
    pub target: Designator<'t>,
    /// The place of the `:=`.
    pub at: u32,
    pub value: Expression<'t>,
}

#[allow(dead_code)]
pub struct ForHeader<'t> {
    pub variable: Identifier<'t>,
    pub from: Expression<'t>,
    pub direction: Direction,
    pub last: Expression<'t>,
}

/// Larger parts are boxed, since a text can have a million empty statements.
pub enum Statement<'t> {
    Empty,
    Assign(Box<Assignment<'t>>),
    Call(Box<Designator<'t>>, Vec<Expression<'t>>),
    Compound(Vec<Statement<'t>>),
    If {
        condition: Box<Expression<'t>>,
        then: Box<Statement<'t>>,
    },
    IfElse {
        condition: Box<Expression<'t>>,
        then: Box<Statement<'t>>,
        otherwise: Box<Statement<'t>>,
    },
    Case {
        selector: Box<Expression<'t>>,
        arms: Vec<Arm<'t>>,
    },
    While {
        condition: Box<Expression<'t>>,
        body: Box<Statement<'t>>,
    },
    Repeat {
        body: Vec<Statement<'t>>,
        condition: Box<Expression<'t>>,
    },
    For {
        header: Box<ForHeader<'t>>,
        body: Box<Statement<'t>>,
    },
    Cycle(Vec<Statement<'t>>),
    Init {
        at: u32,
        items: Vec<InitItem<'t>>,
    },
}

pub struct Arm<'t> {
    pub labels: Vec<Constant<'t>>,
    pub body: Statement<'t>,
}

pub struct InitItem<'t> {
    pub component: Identifier<'t>,
    pub arguments: Vec<Expression<'t>>,
}

/// The place is that of the `begin`.
pub struct Body<'t> {
    pub at: u32,
    pub statements: Vec<Statement<'t>>,
}

pub struct Parameters<'t> {
    /// The place of the word `var`, if it stands before them.
    pub by_reference: Option<u32>,
    pub names: Vec<Identifier<'t>>,
    pub of: Identifier<'t>,
}

pub struct Routine<'t> {
    /// The place of the word `entry`, if there is one.
    pub entry: Option<u32>,
    pub name: Identifier<'t>,
    pub parameters: Vec<Parameters<'t>>,
    pub result_type: Option<Identifier<'t>>,
    pub variables: Vec<Fields<'t>>,
    pub body: Body<'t>,
}

#[derive(Clone, Copy, PartialEq, Eq)]
pub enum Sort {
    Process,
    Monitor,
    Class,
}

pub struct System<'t> {
    pub sort: Sort,
    pub parameters: Vec<Parameters<'t>>,
    pub variables: Vec<Fields<'t>>,
    pub routines: Vec<Routine<'t>>,
    pub body: Body<'t>,
}

pub enum Defined<'t> {
    Written(TypeExpression<'t>),
    Enumeration(Vec<Identifier<'t>>),
    System(System<'t>),
}

pub struct ConstantDefinition<'t> {
    pub name: Identifier<'t>,
    pub value: Constant<'t>,
}

pub struct TypeDefinition<'t> {
    pub name: Identifier<'t>,
    pub defined: Defined<'t>,
}

pub enum Section<'t> {
    Constants(Vec<ConstantDefinition<'t>>),
    Types(Vec<TypeDefinition<'t>>),
}

pub struct Tree<'t> {
    pub sections: Vec<Section<'t>>,
    pub variables: Vec<Fields<'t>>,
    pub routines: Vec<Routine<'t>>,
    pub body: Body<'t>,
}

impl Constant<'_> {
    pub fn at(&self) -> u32 {
        match self {
            Constant::Number { at, .. }
            | Constant::Negative { at, .. }
            | Constant::Character { at, .. } => *at,
            Constant::Named(name) => name.at,
        }
    }
}

impl TypeExpression<'_> {
    /// The place of the first token.
    pub fn at(&self) -> u32 {
        match self {
            TypeExpression::Named(name) => name.at,
            TypeExpression::Subrange(low, _) => low.at(),
            TypeExpression::Array { at, .. } | TypeExpression::Record { at, .. } => *at,
        }
    }
}

impl Expression<'_> {
    /// The place of the first token.
    pub fn at(&self) -> u32 {
        match self {
            Expression::Number { at, .. }
            | Expression::Character { at, .. }
            | Expression::Parenthesized { at, .. }
            | Expression::Not { at, .. }
            | Expression::Signed { at, .. } => *at,
            Expression::Designated(designator) | Expression::Call(designator, _) => {
                designator.root.at
            }
            Expression::Chain { first, .. } => first.at(),
        }
    }
}

impl<'t> Designator<'t> {
    /// The name of the last field, or the first name.
    pub fn last_name(&self) -> Identifier<'t> {
        let last = self
            .selectors
            .iter()
            .rev()
            .find_map(|selector| match selector {
                Selector::Field { name, .. } => Some(*name),
                Selector::Indexed(_) => None,
            });
        last.unwrap_or(self.root)
    }

    pub fn has_field(&self) -> bool {
        self.selectors
            .iter()
            .any(|selector| matches!(selector, Selector::Field { .. }))
    }
}
