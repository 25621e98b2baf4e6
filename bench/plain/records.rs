//! The program of `texts/records.cp`.

use crate::assembly::{
    alone, call, counting, local, member, negative, next_seed, set, set_local, set_member,
    start_at, start_for, term, unit, variable, zeros,
};
use crate::program::{
    Argument, Index, Operand, Operation, Operator, Program, Root, Spot, Target, Term,
};

/// The table that a routine gets.
const TABLE: Root = Root::Through(0);
const SIZE_OF_ROW: u32 = 2;

/// A part of a row of the table, which lies `plus` words from the row's first.
fn row_part(index: Term, plus: u32) -> Spot {
    let index = Index {
        low: 0,
        high: 60,
        size: SIZE_OF_ROW,
        plus,
        value: index,
    };
    Spot {
        root: TABLE,
        indices: vec![index],
    }
}

fn copy_row(to: Spot, from: Spot, next: u32) -> Operation {
    Operation::CopyWords {
        to,
        from,
        size: SIZE_OF_ROW,
        next,
    }
}

/// `refill`, from place 0.
fn refill() -> Vec<Operation> {
    let (seed, i) = (123, 1);
    let each = counting(Root::Local(i), 0, 4, 0);
    vec![
        Operation::Return { function: false },
        Operation::ForNext(each),
        set(row_part(local(i), 1), local(i), 1),
        set(row_part(local(i), 0), member(seed), 2),
        set_member(seed, next_seed(seed), 3),
        start_for(each, 1, 60),
    ]
}

/// `sort`, from place 6.
fn sort() -> Vec<Operation> {
    let (i, j, r) = (1, 2, 3);
    let each = counting(Root::Local(i), 0, 13, 6);
    let after_j = || row_part(local(j).then(Operator::Add, 1), 0);
    let kept = || variable(Root::Local(r));
    let is_above = term(row_part(local(j), 0)).then(Operator::Greater, Operand::Local(r));
    vec![
        Operation::Return { function: false },
        Operation::ForNext(each),
        copy_row(after_j(), kept(), 7),
        Operation::Test {
            value: is_above,
            yes: 11,
            no: 8,
        },
        set_local(j, local(j).then(Operator::Subtract, 1), 9),
        copy_row(after_j(), row_part(local(j), 0), 10),
        set_local(j, local(i).then(Operator::Subtract, 1), 9),
        copy_row(kept(), row_part(local(i), 0), 12),
        start_for(each, 2, 60),
        set(row_part(term(0), 0), negative(1), 14),
    ]
}

/// The body in `records.cp`, from place 16.
fn body() -> Vec<Operation> {
    let passes = 124;
    let rows = || Argument::Reference {
        at: 0,
        to: variable(Root::Member(1)),
    };
    let next_pass = member(passes)
        .then(Operator::Add, 1)
        .then(Operator::Modulo, 1000);
    vec![
        Operation::End,
        Operation::Cycle { body: 20 },
        set_member(passes, next_pass, 17),
        Operation::Procedure {
            call: call(1, Target::Own, vec![rows()], 0, 0),
            next: 18,
        },
        Operation::Procedure {
            call: call(0, Target::Own, vec![rows()], 0, 0),
            next: 19,
        },
    ]
}

pub fn program() -> Program {
    let operations = [refill(), sort(), body()].into_iter().flatten().collect();
    let units = vec![unit(5, zeros(1, 1)), unit(15, zeros(1, 4))];
    alone(operations, units, start_at(17, 125, 130))
}
