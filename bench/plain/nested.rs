//! The program of `texts/nested.cp`.

use crate::assembly::{
    alone, call, counting, local, made, member, set, set_member, set_result, start_for, term, unit,
    unset, value, variable,
};
use crate::program::{
    Argument, Bounds, Index, Operand, Operation, Operator, Program, Root, Spot, Start, Table,
    Target,
};

/// A part of `shapes[i]` in `nested.cp`.
fn shape_part(plus: u32) -> Spot {
    let index = Index {
        low: 1,
        high: 4,
        size: 18,
        plus,
        value: member(81),
    };
    Spot {
        root: Root::Member(1),
        indices: vec![index],
    }
}

/// A part of `shapes[i].points[k]`.
fn point_part(plus: u32) -> Spot {
    let mut spot = shape_part(1);
    spot.indices.push(Index {
        low: 1,
        high: 8,
        size: 2,
        plus,
        value: member(82),
    });
    spot
}

/// The class `counter`, from place 0: `add`, `level` and the body.
fn counter() -> Vec<Operation> {
    let (limit, total, passes, n) = (1, 2, 3, 0);
    let is_full = member(total).then(Operator::AtLeast, Operand::Member(limit));
    vec![
        Operation::Return { function: false },
        set_member(
            passes,
            member(passes)
                .then(Operator::Add, 1)
                .then(Operator::Modulo, 1000),
            0,
        ),
        set_member(
            total,
            member(total).then(Operator::Subtract, Operand::Member(limit)),
            1,
        ),
        Operation::Test {
            value: is_full,
            yes: 2,
            no: 0,
        },
        set_member(
            total,
            member(total).then(Operator::Add, Operand::Local(n)),
            3,
        ),
        Operation::Return { function: true },
        set_result(member(total).then(Operator::Divide, 10), 5),
        Operation::EndBody,
        set_member(passes, term(0), 7),
        set_member(total, term(0), 8),
    ]
}

/// The class `meter`, from place 10: `note`, `reading` and the body.
fn meter() -> Vec<Operation> {
    let (weight, inner, last) = (1, 2, 6);
    let weighted = local(1).then(Operator::Multiply, Operand::Member(weight));
    let amount = local(0).then(Operator::Add, weighted);
    let add = call(0, Target::Class(inner), vec![value(0, amount)], 2, 0);
    let level = call(1, Target::Class(inner), vec![], 1, 0);
    let body = call(2, Target::Class(inner), vec![value(1, term(500))], 0, 0);
    let (to, from) = (variable(Root::Member(last)), variable(Root::Local(0)));
    vec![
        Operation::Return { function: false },
        Operation::CopyWords {
            to,
            from,
            size: 2,
            next: 10,
        },
        Operation::Procedure {
            call: add,
            next: 11,
        },
        Operation::Return { function: true },
        set_result(made(0).then(Operator::Add, Operand::Member(last)), 13),
        Operation::Function {
            call: level,
            into: 0,
            next: 14,
        },
        Operation::EndBody,
        Operation::InitClass {
            call: body,
            next: 16,
        },
    ]
}

/// The end of the outer loop's body in `nested.cp`, from place 20: the `case`.
fn ends() -> Vec<Operation> {
    let set_ends = |n, next| Operation::Set {
        to: shape_part(0),
        bounds: Bounds { low: 0, high: 1 },
        value: term(n),
        next,
    };
    let reading = call(4, Target::Class(73), vec![], 0, 2);
    vec![
        Operation::ForNext(counting(Root::Member(81), 0, 30, 19)),
        set(shape_part(17), made(2), 20),
        Operation::Function {
            call: reading,
            into: 2,
            next: 21,
        },
        set_ends(0, 22),
        set_ends(1, 20),
        Operation::Case {
            value: term(shape_part(0)),
            table: Table {
                low: 0,
                places: vec![Some(24), Some(23)],
            },
        },
    ]
}

/// The rest of the body, from place 26, with the loop over points.
fn points() -> Vec<Operation> {
    let (i, k) = (81, 82);
    let each = counting(Root::Member(k), 2, 29, 25);
    let point = Argument::Copy {
        at: 0,
        size: 2,
        from: point_part(0),
    };
    let product = member(i).then(Operator::Multiply, Operand::Member(k));
    let x = term(point_part(0))
        .then(Operator::Add, product)
        .then(Operator::Modulo, 100);
    let y = term(point_part(1))
        .then(Operator::Add, point_part(0))
        .then(Operator::Modulo, 100);
    vec![
        Operation::ForNext(each),
        Operation::Procedure {
            call: call(3, Target::Class(73), vec![point], 0, 4),
            next: 26,
        },
        set(point_part(1), y, 27),
        set(point_part(0), x, 28),
        start_for(each, 1, 8),
        start_for(counting(Root::Member(i), 0, 30, 19), 1, 4),
        Operation::InitClass {
            call: call(5, Target::Class(73), vec![value(1, term(3))], 0, 0),
            next: 19,
        },
    ]
}

pub fn program() -> Program {
    let cycle = vec![Operation::End, Operation::Cycle { body: 31 }];
    let starts = [
        (4, vec![]),
        (6, unset()),
        (9, vec![]),
        (12, vec![]),
        (15, unset()),
        (17, vec![]),
    ];
    let operations = [counter(), meter(), cycle, ends(), points()]
        .into_iter()
        .flatten()
        .collect();
    let units = starts
        .into_iter()
        .map(|(start, fills)| unit(start, fills))
        .collect();
    let start = Start {
        place: 32,
        own: 83,
        words: 87,
        temps: 5,
        frames: 2,
        parameters: vec![],
        variables: vec![1..73, 74..75, 76..83],
    };
    alone(operations, units, start)
}
