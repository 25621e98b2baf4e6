//! The program of `texts/buffers.cp`.

use crate::assembly::{
    after_initial, call, counting, member, next_seed, set, set_member, start_for, term, unit,
    variable,
};
use crate::program::{
    Argument, Counting, Index, Operand, Operation, Operator, Program, Root, Spot, Start, Target,
};
use crate::ring::{count_up, sum_modulo, Ring};

/// The words of a line.
const WIDTH: u32 = 8;
const RING: Ring = Ring {
    size: WIDTH,
    head: 4 * WIDTH,
};
/// The words of a monitor, with three counts.
const MONITOR: usize = 58;

fn copy(to: Spot, from: Spot, next: u32) -> Operation {
    Operation::CopyWords {
        to,
        from,
        size: WIDTH,
        next,
    }
}

/// `put`, from place 0 to 11.
fn put() -> Vec<Operation> {
    let length = RING.length();
    let to = RING.slot(sum_modulo(RING.head, length, 4));
    let mut operations = RING.resume(RING.receivers(), 0);
    operations.extend([
        set_member(length, member(length).then(Operator::Add, 1), 5),
        copy(to, variable(Root::Local(0)), 6),
    ]);
    operations.extend(RING.wait(RING.senders(), 4, RING.counts() + 1, 8));
    operations
}

/// `take`, from place 12 to 25.
fn take() -> Vec<Operation> {
    let (length, counts) = (RING.length(), RING.counts());
    let from = RING.slot(member(RING.head));
    let mut operations = RING.resume(RING.senders(), 12);
    operations.extend([
        count_up(counts, 30000, 17),
        set_member(length, member(length).then(Operator::Subtract, 1), 18),
        count_up(RING.head, 4, 19),
        copy(variable(Root::Through(0)), from, 20),
    ]);
    operations.extend(RING.wait(RING.receivers(), 0, counts + 2, 22));
    operations
}

/// A process with a line: where its words are.
struct User {
    text: u32,
    k: u32,
}

impl User {
    /// `text[k]`
    fn character(&self) -> Spot {
        let index = Index {
            low: 1,
            high: WIDTH as i32,
            size: 1,
            plus: 0,
            value: member(self.k),
        };
        Spot {
            root: Root::Member(self.text),
            indices: vec![index],
        }
    }

    fn each(&self, body: u32, next: u32) -> Counting {
        counting(Root::Member(self.k), 0, body, next)
    }

    /// `buffer.put(text)`, where the word `buffer` has the right to it.
    fn put(&self, buffer: u32, next: u32) -> Operation {
        let text = Argument::Copy {
            at: 0,
            size: WIDTH,
            from: variable(Root::Member(self.text)),
        };
        Operation::Procedure {
            call: call(0, Target::MonitorRight(buffer), vec![text], 0, 0),
            next,
        }
    }

    /// `buffer.take(text)`
    fn take(&self, buffer: u32, next: u32) -> Operation {
        let text = Argument::Reference {
            at: 0,
            to: variable(Root::Member(self.text)),
        };
        Operation::Procedure {
            call: call(1, Target::MonitorRight(buffer), vec![text], 0, 0),
            next,
        }
    }
}

/// From place 26 to 32.
fn producer() -> Vec<Operation> {
    let user = User { text: 1, k: 9 };
    let seed = 10;
    let each = user.each(31, 28);
    vec![
        Operation::End,
        Operation::Cycle { body: 32 },
        user.put(0, 27),
        Operation::ForNext(each),
        set(user.character(), member(seed), 29),
        set_member(seed, next_seed(seed), 30),
        start_for(each, 1, WIDTH as i32),
    ]
}

/// From place 33 to 39.
fn copier() -> Vec<Operation> {
    let user = User { text: 2, k: 10 };
    let each = user.each(37, 35);
    let changed = term(user.character())
        .then(Operator::Multiply, 3)
        .then(Operator::Add, Operand::Member(user.k))
        .then(Operator::Modulo, 997);
    vec![
        Operation::End,
        Operation::Cycle { body: 39 },
        user.put(1, 34),
        Operation::ForNext(each),
        set(user.character(), changed, 36),
        start_for(each, 1, WIDTH as i32),
        user.take(0, 38),
    ]
}

/// From place 40 to 45.
fn consumer() -> Vec<Operation> {
    let user = User { text: 1, k: 9 };
    let sum = 10;
    let each = user.each(43, 41);
    let added = member(sum)
        .then(Operator::Add, user.character())
        .then(Operator::Modulo, 10000);
    vec![
        Operation::End,
        Operation::Cycle { body: 45 },
        Operation::ForNext(each),
        set_member(sum, added, 42),
        start_for(each, 1, WIDTH as i32),
        user.take(0, 44),
    ]
}

/// A process that starts at a place, with rights to these monitors and so many words of its own.
fn started(place: u32, rights: &[i32]) -> Start {
    let own: u32 = 11;
    Start {
        place,
        own,
        words: (own + WIDTH) as usize,
        temps: 2,
        frames: 1,
        parameters: rights.to_vec(),
        variables: vec![rights.len()..own as usize],
    }
}

pub fn program() -> Program {
    let four = |place: u32, rights: &'static [i32]| (0..4).map(move |_| started(place, rights));
    let users = four(27, &[1])
        .chain(four(34, &[1, 2]))
        .chain(four(41, &[2]));
    let routines = [put(), take(), producer(), copier(), consumer()];
    Program {
        operations: routines.into_iter().flatten().collect(),
        units: vec![unit(11, vec![]), unit(25, vec![])],
        processes: after_initial(users),
        monitors: vec![0, MONITOR as u32],
        shared: 2 * MONITOR,
        shared_variables: vec![0..34, 50..58, 58..92, 108..116],
    }
}
