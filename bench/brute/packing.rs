//! States as bytes. A number has seven bits in each byte, lowest first.
//!
//! Different states have different bytes: what is unpacked is what was packed.

use crate::state::{Activity, Frame, Gate, Holder, Kernel, Process, Stage};

/// Reads the bytes of a packed state in order.
pub struct Reader<'a> {
    bytes: std::slice::Iter<'a, u8>,
}

impl<'a> Reader<'a> {
    pub fn new(bytes: &'a [u8]) -> Reader<'a> {
        Reader {
            bytes: bytes.iter(),
        }
    }

    pub fn number(&mut self) -> u32 {
        let mut number = 0;
        for place in (0..).step_by(7) {
            let byte = *self.bytes.next().expect("another byte");
            number |= u32::from(byte & 0x7f) << place;
            if byte < 0x80 {
                break;
            }
        }
        number
    }

    fn words(&mut self, words: &mut Vec<i32>) {
        words.clear();
        let head = self.number();
        let count = head as usize >> 1;
        if head & 1 == 1 {
            let (small, rest) = self.bytes.as_slice().split_at(count);
            words.extend(small.iter().map(|byte| unfold(u32::from(*byte))));
            self.bytes = rest.iter();
        } else {
            words.extend((0..count).map(|_| unfold(self.number())));
        }
    }
}

/// A number for a word, which is small if the word is close to 0.
fn fold(word: i32) -> u32 {
    ((word << 1) ^ (word >> 31)) as u32
}

fn unfold(folded: u32) -> i32 {
    (folded >> 1) as i32 ^ -((folded & 1) as i32)
}

/// The most bytes of a number.
pub const MAX_NUMBER_BYTES: usize = 5;

/// Writes numbers into a slice that has room for them, and returns how many bytes they take.
pub fn put_all(bytes: &mut [u8], numbers: &[u32]) -> usize {
    let mut at = 0;
    for mut number in numbers.iter().copied() {
        while number >= 0x80 {
            bytes[at] = number as u8 | 0x80;
            number >>= 7;
            at += 1;
        }
        bytes[at] = number as u8;
        at += 1;
    }
    at
}

fn put(bytes: &mut Vec<u8>, mut number: u32) {
    while number >= 0x80 {
        bytes.push(number as u8 | 0x80);
        number >>= 7;
    }
    bytes.push(number as u8);
}

/// Words that are all small take a byte each, which is soon done.
fn put_words(bytes: &mut Vec<u8>, words: &[i32]) {
    let are_small = words.iter().fold(0, |all, word| all | fold(*word)) < 0x100;
    put(bytes, (words.len() as u32) << 1 | u32::from(are_small));
    if are_small {
        bytes.extend(words.iter().map(|word| fold(*word) as u8));
    } else {
        words.iter().for_each(|word| put(bytes, fold(*word)));
    }
}

impl Process {
    pub fn pack(&self, bytes: &mut Vec<u8>) {
        let activity = match self.activity {
            Activity::Running => 0,
            Activity::Ended => 1,
            Activity::Faulted(number) => 1 + u32::from(number),
        };
        let registers = [self.at, self.base, self.component, self.gate, self.consumed];
        put(bytes, activity);
        registers.iter().for_each(|register| put(bytes, *register));
        put(bytes, self.frames.len() as u32);
        for frame in &self.frames {
            let kept = [frame.node, frame.base, frame.component, frame.gate];
            kept.iter().for_each(|register| put(bytes, *register));
        }
        put_words(bytes, &self.words);
    }

    pub fn unpack(&mut self, from: &mut Reader) {
        self.activity = match from.number() {
            0 => Activity::Running,
            1 => Activity::Ended,
            number => Activity::Faulted(number as u8 - 1),
        };
        self.at = from.number();
        self.base = from.number();
        self.component = from.number();
        self.gate = from.number();
        self.consumed = from.number();
        let frames = from.number();
        self.frames.clear();
        self.frames.extend((0..frames).map(|_| Frame {
            node: from.number(),
            base: from.number(),
            component: from.number(),
            gate: from.number(),
        }));
        from.words(&mut self.words);
    }
}

impl Gate {
    fn pack(&self, bytes: &mut Vec<u8>) {
        match self.holder {
            Holder::Unset => put(bytes, 0),
            Holder::Free => put(bytes, 1),
            Holder::Process(number) => put(bytes, 1 + number),
        }
        put(bytes, self.askers.len() as u32);
        self.askers.iter().for_each(|number| put(bytes, *number));
    }

    fn unpack(&mut self, from: &mut Reader) {
        self.holder = match from.number() {
            0 => Holder::Unset,
            1 => Holder::Free,
            number => Holder::Process(number - 1),
        };
        let askers = from.number();
        self.askers.clear();
        self.askers.extend((0..askers).map(|_| from.number()));
    }
}

impl Stage {
    fn pack(self, bytes: &mut Vec<u8>) {
        match self {
            Stage::Unstarted => put(bytes, 0),
            Stage::Fresh => put(bytes, 1),
            Stage::Begun => put(bytes, 2),
            Stage::Asking(monitor) => put(bytes, 1 + 2 * monitor),
            Stage::Delayed(monitor) => put(bytes, 2 + 2 * monitor),
        }
    }

    fn unpack(from: &mut Reader) -> Stage {
        match from.number() {
            0 => Stage::Unstarted,
            1 => Stage::Fresh,
            2 => Stage::Begun,
            odd if odd % 2 == 1 => Stage::Asking(odd / 2),
            even => Stage::Delayed(even / 2 - 1),
        }
    }
}

impl Kernel {
    pub fn pack(&self, bytes: &mut Vec<u8>) {
        self.gates.iter().for_each(|gate| gate.pack(bytes));
        self.stages.iter().for_each(|stage| stage.pack(bytes));
        put_words(bytes, &self.words);
    }

    /// Unpacks into a kernel of the same program.
    pub fn unpack(&mut self, from: &mut Reader) {
        self.gates.iter_mut().for_each(|gate| gate.unpack(from));
        self.stages
            .iter_mut()
            .for_each(|stage| *stage = Stage::unpack(from));
        from.words(&mut self.words);
    }
}
