//! The program of `texts/calls.cp`.

use crate::assembly::{
    alone, call, local, made, member, set_member, set_result, term, unit, unset, value,
};
use crate::program::{Operand, Operation, Operator, Program, Start, Target, Term};

/// A call in `calls.cp` of a function with these arguments.
fn function(
    unit: u32,
    terms: Vec<Term>,
    words: u32,
    temps: u32,
    into: u32,
    next: u32,
) -> Operation {
    let arguments = (1..).zip(terms).map(|(at, term)| value(at, term)).collect();
    Operation::Function {
        call: call(unit, Target::Own, arguments, words, temps),
        into,
        next,
    }
}

/// The functions in `calls.cp`, from place 0.
fn functions() -> Vec<Operation> {
    let (n, a, b) = (1, 1, 2);
    vec![
        Operation::Return { function: true },
        set_result(local(n).then(Operator::Modulo, 1000), 0),
        Operation::Return { function: true },
        set_result(made(0), 2),
        function(
            0,
            vec![local(n).then(Operator::Add, Operand::Local(n))],
            2,
            0,
            0,
            3,
        ),
        Operation::Return { function: true },
        set_result(made(1), 5),
        function(
            0,
            vec![local(a).then(Operator::Add, Operand::Made(0))],
            3,
            0,
            1,
            6,
        ),
        function(1, vec![local(b)], 3, 0, 0, 7),
        Operation::Return { function: true },
        set_result(made(0).then(Operator::Add, Operand::Made(1)), 9),
        function(0, vec![local(b).then(Operator::Add, 7)], 3, 1, 1, 10),
        function(2, vec![local(a), local(b)], 3, 0, 0, 11),
        Operation::Return { function: true },
        set_result(made(1), 13),
        function(3, vec![made(0), local(b)], 3, 0, 1, 14),
        function(2, vec![local(a), term(1)], 3, 0, 0, 15),
    ]
}

/// The body in `calls.cp`, from place 17.
fn calls_body() -> Vec<Operation> {
    let (x, y) = (1, 2);
    vec![
        Operation::End,
        Operation::Cycle { body: 21 },
        set_member(
            y,
            member(y).then(Operator::Add, 1).then(Operator::Modulo, 300),
            18,
        ),
        set_member(x, made(0), 19),
        function(4, vec![member(x), member(y)], 0, 0, 0, 20),
    ]
}

pub fn program() -> Program {
    let operations = [functions(), calls_body()].into_iter().flatten().collect();
    let units = [1, 4, 8, 12, 16]
        .into_iter()
        .map(|start| unit(start, unset()))
        .collect();
    let start = Start {
        place: 18,
        own: 3,
        words: 17,
        temps: 4,
        frames: 5,
        parameters: vec![],
        variables: vec![1..3],
    };
    alone(operations, units, start)
}
