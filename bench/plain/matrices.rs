//! The program of `texts/matrices.cp`.

use crate::assembly::{
    alone, counting, member, set, set_member, start_at, start_for, term, variable,
};
use crate::program::{Counting, Index, Operand, Operation, Operator, Program, Root, Spot};

// The words of the process.
const A: u32 = 1;
const B: u32 = 145;
const C: u32 = 289;
const I: u32 = 433;
const J: u32 = 434;
const K: u32 = 435;
const L: u32 = 436;
const M: u32 = 437;
const SUM: u32 = 438;
const PASSES: u32 = 439;
const OWN: u32 = 440;
const WORDS: u32 = 144;

fn index(high: i32, size: u32, at: u32) -> Index {
    Index {
        low: 1,
        high,
        size,
        plus: 0,
        value: member(at),
    }
}

/// `matrix[row, column][k, l]`
fn element(matrix: u32, row: u32, column: u32, k: u32, l: u32) -> Spot {
    Spot {
        root: Root::Member(matrix),
        indices: vec![
            index(3, 48, row),
            index(3, 16, column),
            index(4, 4, k),
            index(4, 1, l),
        ],
    }
}

fn copy(to: u32, from: u32, next: u32) -> Operation {
    Operation::CopyWords {
        to: variable(Root::Member(to)),
        from: variable(Root::Member(from)),
        size: WORDS,
        next,
    }
}

/// The `for` of a variable, by its depth.
fn each(variable: u32, depth: u32, body: u32, next: u32) -> Counting {
    counting(Root::Member(variable), 2 * depth, body, next)
}

pub fn program() -> Program {
    let product = term(element(A, I, J, K, M)).then(Operator::Multiply, element(B, J, I, M, L));
    let added = member(SUM)
        .then(Operator::Add, product)
        .then(Operator::Modulo, 101);
    let passes = member(PASSES)
        .then(Operator::Add, 1)
        .then(Operator::Modulo, 1000);
    let rows = each(I, 0, 14, 4);
    let columns = each(J, 1, 13, 5);
    let inner_rows = each(K, 2, 12, 6);
    let inner_columns = each(L, 3, 11, 7);
    let products = each(M, 4, 16, 9);
    let operations = vec![
        Operation::End,
        Operation::Cycle { body: 15 },
        set_member(PASSES, passes, 1),
        copy(B, C, 2),
        copy(A, B, 3),
        Operation::ForNext(rows),
        Operation::ForNext(columns),
        Operation::ForNext(inner_rows),
        Operation::ForNext(inner_columns),
        set(element(C, I, J, K, L), member(SUM), 8),
        Operation::ForNext(products),
        set_member(SUM, member(I).then(Operator::Add, Operand::Member(K)), 17),
        start_for(inner_columns, 1, 4),
        start_for(inner_rows, 1, 4),
        start_for(columns, 1, 3),
        start_for(rows, 1, 3),
        set_member(SUM, added, 10),
        start_for(products, 1, 4),
    ];
    let mut start = start_at(1, OWN, OWN as usize);
    start.temps = 10;
    alone(operations, vec![], start)
}
