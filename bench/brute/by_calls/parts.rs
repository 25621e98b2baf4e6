//! The parts of states: the kernel, and each process.
//!
//! A state is the numbers of its parts. Each different part is kept once, as bytes, with what a
//! search asks of it most often.

use crate::byte_set::ByteSet;
use crate::packing::Reader;
use crate::program::Program;
use crate::state::{Activity, Kernel, Process, Stage};

/// What a process would do next if the kernel lets it run.
#[derive(Clone, Copy, PartialEq, Eq)]
pub enum Way {
    Late,
    Eager,
    Ended,
    Faulted,
}

pub struct Parts<'p> {
    program: &'p Program,
    kernels: ByteSet,
    /// For each kernel the processes that it lets run, as bits.
    begun: Vec<u64>,
    /// How many words of `begun` a kernel has.
    stride: usize,
    /// The parts of each process, from number 1 on.
    processes: Vec<ByteSet>,
    ways: Vec<Vec<Way>>,
    bytes: Vec<u8>,
}

/// What comes next for a process.
pub fn way(program: &Program, process: &Process) -> Way {
    match process.activity {
        Activity::Running if program.node(process).is_late() => Way::Late,
        Activity::Running => Way::Eager,
        Activity::Ended => Way::Ended,
        Activity::Faulted(_) => Way::Faulted,
    }
}

/// Leaves out what nobody reads any more of a process that has ended or faulted.
fn forget(process: &mut Process) {
    if !process.is_running() {
        process.frames.clear();
        process.words.clear();
        process.at = 0;
        process.base = 0;
        process.component = 0;
        process.gate = 0;
    }
}

impl<'p> Parts<'p> {
    pub fn new(program: &'p Program) -> Parts<'p> {
        let count = program.processes.len();
        Parts {
            program,
            kernels: ByteSet::default(),
            begun: Vec::new(),
            stride: count.div_ceil(64),
            processes: (0..count).map(|_| ByteSet::default()).collect(),
            ways: vec![Vec::new(); count],
            bytes: Vec::new(),
        }
    }

    pub fn add_kernel(&mut self, kernel: &Kernel) -> u32 {
        self.bytes.clear();
        kernel.pack(&mut self.bytes);
        let (number, is_new) = self.kernels.insert(&self.bytes);
        if is_new {
            let bits = |stages: &[Stage]| {
                let pairs = stages.iter().zip(0..);
                let begun = pairs.filter(|(stage, _)| **stage == Stage::Begun);
                begun.fold(0, |bits, (_, place)| bits | 1 << place)
            };
            self.begun.extend(kernel.stages.chunks(64).map(bits));
        }
        number as u32
    }

    /// Adds a part of a process, of which it may leave out what nobody reads any more.
    pub fn add_process(&mut self, number: usize, process: &mut Process) -> u32 {
        forget(process);
        self.bytes.clear();
        process.pack(&mut self.bytes);
        let (part, is_new) = self.processes[number - 1].insert(&self.bytes);
        if is_new {
            self.ways[number - 1].push(way(self.program, process));
        }
        part as u32
    }

    pub fn unpack_kernel(&self, kernel: u32, into: &mut Kernel) {
        into.unpack(&mut Reader::new(self.kernels.get(kernel as usize)));
    }

    pub fn unpack_process(&self, number: usize, part: u32, into: &mut Process) {
        let bytes = self.processes[number - 1].get(part as usize);
        into.unpack(&mut Reader::new(bytes));
    }

    pub fn way(&self, number: usize, part: u32) -> Way {
        self.ways[number - 1][part as usize]
    }

    fn begun(&self, kernel: u32) -> &[u64] {
        let first = kernel as usize * self.stride;
        &self.begun[first..first + self.stride]
    }

    /// Whether a kernel lets a process run that one before it doesn't.
    pub fn has_woken(&self, before: u32, after: u32) -> bool {
        let mut pairs = self.begun(before).iter().zip(self.begun(after));
        pairs.any(|(before, after)| after & !before != 0)
    }

    /// Whether the kernel lets a process run, and its next step is of this kind.
    pub fn may_move(&self, state: &[u32], number: usize, kind: Way) -> bool {
        let (word, bit) = ((number - 1) / 64, (number - 1) % 64);
        self.begun(state[0])[word] >> bit & 1 == 1 && self.way(number, state[number]) == kind
    }

    /// The first process that may make a step of this kind.
    pub fn first_mover(&self, state: &[u32], kind: Way) -> Option<usize> {
        (1..state.len()).find(|number| self.may_move(state, *number, kind))
    }

    pub fn kernels(&self) -> usize {
        self.kernels.len()
    }

    /// The number of different parts of all processes.
    pub fn process_parts(&self) -> usize {
        self.processes.iter().map(ByteSet::len).sum()
    }

    /// The bytes of memory of all parts.
    pub fn memory(&self) -> usize {
        let of_processes: usize = self.processes.iter().map(ByteSet::memory).sum();
        let ways: usize = self.ways.iter().map(Vec::capacity).sum();
        self.kernels.memory() + 8 * self.begun.capacity() + of_processes + ways
    }
}
