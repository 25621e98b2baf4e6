//! The program of `texts/buffer.cp`.

use crate::assembly::{after_initial, call, member, set, set_member, term, unit, value, variable};
use crate::program::{Argument, Operand, Operation, Operator, Program, Root, Start, Target};
use crate::ring::{count_up, sum_modulo, Ring};

const RING: Ring = Ring { size: 1, head: 4 };

/// `put`, from place 0 to 12.
fn put() -> Vec<Operation> {
    let (item, length, counts) = (0, RING.length(), RING.counts());
    let to = RING.slot(sum_modulo(RING.head, length, 4));
    let mut operations = RING.resume(RING.receivers(), 0);
    operations.extend([
        count_up(counts, 30000, 5),
        set_member(length, member(length).then(Operator::Add, 1), 6),
        set(to, term(Operand::Local(item)), 7),
    ]);
    operations.extend(RING.wait(RING.senders(), 4, counts + 2, 9));
    operations
}

/// `take`, from place 13 to 26.
fn take() -> Vec<Operation> {
    let (item, length, counts) = (0, RING.length(), RING.counts());
    let from = term(RING.slot(member(RING.head)));
    let mut operations = RING.resume(RING.senders(), 13);
    operations.extend([
        count_up(counts + 1, 30000, 18),
        set_member(length, member(length).then(Operator::Subtract, 1), 19),
        count_up(RING.head, 4, 20),
        set(variable(Root::Through(item)), from, 21),
    ]);
    operations.extend(RING.wait(RING.receivers(), 0, counts + 3, 23));
    operations
}

/// The producer from place 27 to 30, and the consumer from place 31 to 34.
fn users() -> Vec<Operation> {
    let (buffer, item, sum) = (0, 1, 2);
    let to = Argument::Reference {
        at: 0,
        to: variable(Root::Member(item)),
    };
    let buffer = Target::MonitorRight(buffer);
    vec![
        Operation::End,
        Operation::Cycle { body: 30 },
        Operation::Procedure {
            call: call(0, buffer, vec![value(0, member(item))], 0, 0),
            next: 28,
        },
        count_up(item, 1000, 29),
        Operation::End,
        Operation::Cycle { body: 34 },
        set_member(sum, sum_modulo(sum, item, 10000), 32),
        Operation::Procedure {
            call: call(1, buffer, vec![to], 0, 0),
            next: 33,
        },
    ]
}

fn user(place: u32, own: u32) -> Start {
    Start {
        place,
        own,
        words: own as usize + 1,
        temps: 0,
        frames: 1,
        parameters: vec![1],
        variables: vec![1..own as usize],
    }
}

pub fn program() -> Program {
    let producers = (0..8).map(|_| user(28, 2));
    let consumers = (0..8).map(|_| user(32, 3));
    Program {
        operations: [put(), take(), users()].into_iter().flatten().collect(),
        units: vec![unit(12, vec![]), unit(26, vec![])],
        processes: after_initial(producers.chain(consumers)),
        monitors: vec![0],
        shared: 31,
        shared_variables: vec![0..6, 22..31],
    }
}
