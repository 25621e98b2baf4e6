//! The program of `texts/sorting.cp`.

use crate::assembly::{
    alone, call, counting, local, member, negative, next_seed, set, set_local, set_member,
    start_at, start_for, term, unit, variable, zeros,
};
use crate::program::{
    Argument, Index, Operand, Operation, Operator, Program, Root, Spot, Target, Term,
};

/// An element of the table in `sorting.cp`.
fn number_at(root: Root, index: Term) -> Spot {
    let index = Index {
        low: 0,
        high: 100,
        size: 1,
        plus: 0,
        value: index,
    };
    Spot {
        root,
        indices: vec![index],
    }
}

/// `refill`, from place 0.
fn refill() -> Vec<Operation> {
    let (seed, i) = (102, 0);
    let each = counting(Root::Local(i), 0, 3, 0);
    vec![
        Operation::Return { function: false },
        Operation::ForNext(each),
        set(number_at(Root::Member(1), local(i)), member(seed), 1),
        set_member(seed, next_seed(seed), 2),
        start_for(each, 1, 100),
    ]
}

/// `sort`, from place 5.
fn sort() -> Vec<Operation> {
    let (t, i, j, x) = (Root::Through(0), 1, 2, 3);
    let each = counting(Root::Local(i), 0, 12, 5);
    let after_j = || local(j).then(Operator::Add, 1);
    let is_above = term(number_at(t, local(j))).then(Operator::Greater, Operand::Local(x));
    vec![
        Operation::Return { function: false },
        Operation::ForNext(each),
        set(number_at(t, after_j()), local(x), 6),
        Operation::Test {
            value: is_above,
            yes: 10,
            no: 7,
        },
        set_local(j, local(j).then(Operator::Subtract, 1), 8),
        set(number_at(t, after_j()), term(number_at(t, local(j))), 9),
        set_local(j, local(i).then(Operator::Subtract, 1), 8),
        set_local(x, term(number_at(t, local(i))), 11),
        start_for(each, 2, 100),
        set(number_at(t, term(0)), negative(1), 13),
    ]
}

/// The body in `sorting.cp`, from place 15.
fn sorting_body() -> Vec<Operation> {
    let passes = 103;
    let numbers = Argument::Reference {
        at: 0,
        to: variable(Root::Member(1)),
    };
    vec![
        Operation::End,
        Operation::Cycle { body: 19 },
        set_member(
            passes,
            member(passes)
                .then(Operator::Add, 1)
                .then(Operator::Modulo, 1000),
            16,
        ),
        Operation::Procedure {
            call: call(1, Target::Own, vec![numbers], 0, 0),
            next: 17,
        },
        Operation::Procedure {
            call: call(0, Target::Own, vec![], 0, 0),
            next: 18,
        },
    ]
}

pub fn program() -> Program {
    let operations = [refill(), sort(), sorting_body()]
        .into_iter()
        .flatten()
        .collect();
    let units = vec![unit(4, zeros(0, 1)), unit(14, zeros(1, 3))];
    alone(operations, units, start_at(16, 104, 108))
}
