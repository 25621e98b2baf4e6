//! The program of `texts/classes.cp`.

use crate::assembly::{
    after_initial, call, counting, local, made, member, set, set_member, set_result, start_for,
    term, unit, unset, value, variable,
};
use crate::program::{Argument, Operand, Operation, Operator, Program, Root, Start, Target};

/// The class `tally`, from place 0: `add`, `value` and the body.
fn tally() -> Vec<Operation> {
    let (total, n) = (1, 0);
    let sum = member(total).then(Operator::Add, Operand::Local(n));
    vec![
        Operation::Return { function: false },
        set_member(total, sum.then(Operator::Modulo, 10000), 0),
        Operation::Return { function: true },
        set_result(member(total), 2),
        Operation::EndBody,
        set_member(total, term(0), 4),
    ]
}

/// The class `generator`, from place 6: `restart`, `next` and the body.
fn generator() -> Vec<Operation> {
    let (first, number, n) = (1, 2, 0);
    let next = member(number)
        .then(Operator::Multiply, 17)
        .then(Operator::Add, 59)
        .then(Operator::Modulo, 1009);
    vec![
        Operation::Return { function: false },
        set_member(number, local(n), 6),
        Operation::Return { function: true },
        set_result(member(number), 8),
        set_member(number, next, 9),
        Operation::EndBody,
        set_member(number, member(first), 11),
    ]
}

/// The monitors `register`, from place 13, and `seeds`, from place 16.
fn monitors() -> Vec<Operation> {
    let (sum, uses, seed, n) = (0, 1, 0, 0);
    let used = member(uses).then(Operator::Add, 1);
    let added = member(sum).then(Operator::Add, Operand::Local(n));
    let sown = member(seed).then(Operator::Add, 7);
    vec![
        Operation::Return { function: false },
        set_member(uses, used.then(Operator::Modulo, 30000), 13),
        set_member(sum, added.then(Operator::Modulo, 10000), 14),
        Operation::Return { function: false },
        set(variable(Root::Through(n)), member(seed), 16),
        set_member(seed, sown.then(Operator::Modulo, 1009), 17),
    ]
}

/// The worker, from place 19.
fn worker() -> Vec<Operation> {
    let (register, seeds, me, tally, generator, i, n) = (0, 1, 2, 3, 5, 8, 9);
    let procedure = |unit, target, arguments, next| Operation::Procedure {
        call: call(unit, target, arguments, 0, 3),
        next,
    };
    let function = |unit, target, into, next| Operation::Function {
        call: call(unit, target, vec![], 0, 3),
        into,
        next,
    };
    let init = |unit, target, arguments, next| Operation::InitClass {
        call: call(unit, target, arguments, 0, 3),
        next,
    };
    let (tally, generator) = (Target::Class(tally), Target::Class(generator));
    let (register, seeds) = (Target::MonitorRight(register), Target::MonitorRight(seeds));
    let to = Argument::Reference {
        at: 0,
        to: variable(Root::Member(n)),
    };
    let numbers = counting(Root::Member(i), 0, 27, 24);
    vec![
        Operation::End,
        Operation::Cycle { body: 28 },
        procedure(3, generator, vec![value(0, member(n))], 20),
        procedure(7, seeds, vec![to], 21),
        procedure(6, register, vec![value(0, made(0))], 22),
        function(1, tally, 0, 23),
        Operation::ForNext(numbers),
        procedure(0, tally, vec![value(0, made(2))], 25),
        function(4, generator, 2, 26),
        start_for(numbers, 1, 50),
        init(5, generator, vec![value(1, member(me))], 20),
        init(2, tally, vec![], 29),
    ]
}

pub fn program() -> Program {
    let workers = (1..=16).map(|me| Start {
        place: 30,
        own: 10,
        words: 11,
        temps: 3,
        frames: 1,
        parameters: vec![1, 2, me],
        variables: vec![2..3, 4..5, 6..10],
    });
    let starts = [
        (1, vec![]),
        (3, unset()),
        (5, vec![]),
        (7, vec![]),
        (10, unset()),
        (12, vec![]),
        (15, vec![]),
        (18, vec![]),
    ];
    Program {
        operations: [tally(), generator(), monitors(), worker()]
            .into_iter()
            .flatten()
            .collect(),
        units: starts
            .into_iter()
            .map(|(start, fills)| unit(start, fills))
            .collect(),
        processes: after_initial(workers),
        monitors: vec![0, 2],
        shared: 3,
        shared_variables: vec![0..3],
    }
}
