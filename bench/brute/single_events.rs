//! The search over single events, without any reduction.
//!
//! In each state each ready process may make its next step, and the round may end while a process
//! is fresh. The search goes by the number of late steps, so that each state is reached with the
//! fewest.

use crate::byte_set::ByteSet;
use crate::findings::{Findings, Stopped};
use crate::packing::Reader;
use crate::program::Program;
use crate::state::State;

/// The mover of an event that ends the round.
const END_OF_ROUND: u8 = 0;
/// The parent of the start.
const NOBODY: u32 = u32::MAX;

/// How a state was reached.
#[derive(Clone, Copy)]
struct Way {
    late_steps: u32,
    parent: u32,
    mover: u8,
    is_expanded: bool,
}

pub struct Search<'p> {
    program: &'p Program,
    servers: &'p [u32],
    limit: usize,
    seen: ByteSet,
    ways: Vec<Way>,
    /// The number of late steps before the states that are expanded now.
    late_steps: u32,
    /// States that are still to be expanded: after so many late steps, and after one more.
    now: Vec<u32>,
    later: Vec<u32>,
    pub findings: Findings,
}

fn pack(state: &State) -> Vec<u8> {
    let mut bytes = Vec::new();
    state.kernel.pack(&mut bytes);
    let processes = state.processes.iter();
    processes.for_each(|process| process.pack(&mut bytes));
    bytes
}

fn unpack(program: &Program, bytes: &[u8]) -> State {
    let mut state = State::new(program);
    let mut from = Reader::new(bytes);
    state.kernel.unpack(&mut from);
    let processes = state.processes.iter_mut();
    processes.for_each(|process| process.unpack(&mut from));
    state
}

/// Makes an event, and returns whether it is a late step.
fn make(program: &Program, state: &mut State, mover: u8) -> bool {
    if mover == END_OF_ROUND {
        state.kernel.close_round();
        return false;
    }
    let process = &state.processes[usize::from(mover) - 1];
    let is_late = program.node(process).is_late();
    program.step_in(state, u32::from(mover));
    is_late
}

/// The events that a state allows.
fn events(state: &State) -> Vec<u8> {
    let ready = state.numbers().filter(|number| state.is_ready(*number));
    let steps = ready.map(|number| number as u8);
    let end = state.kernel.has_fresh().then_some(END_OF_ROUND);
    steps.chain(end).collect()
}

impl<'p> Search<'p> {
    pub fn new(program: &'p Program, servers: &'p [u32], limit: usize) -> Search<'p> {
        Search {
            program,
            servers,
            limit,
            seen: ByteSet::default(),
            ways: Vec::new(),
            late_steps: 0,
            now: Vec::new(),
            later: Vec::new(),
            findings: Findings::default(),
        }
    }

    /// Keeps a state if it is new, or was reached with more late steps before.
    fn reach(
        &mut self,
        state: &State,
        is_late: bool,
        parent: u32,
        mover: u8,
    ) -> Result<(), Stopped> {
        let bytes = pack(state);
        let (number, is_new) = self.seen.insert(&bytes);
        if number >= self.limit {
            return Err(Stopped::States(self.limit));
        }
        let way = Way {
            late_steps: self.late_steps + u32::from(is_late),
            parent,
            mover,
            is_expanded: false,
        };
        if is_new {
            let is_kept = unpack(self.program, &bytes) == *state;
            assert!(is_kept, "a packed state is unpacked as it was");
            self.ways.push(way);
        } else if way.late_steps < self.ways[number].late_steps {
            self.ways[number] = way;
        } else {
            return Ok(());
        }
        let list = if is_late {
            &mut self.later
        } else {
            &mut self.now
        };
        list.push(number as u32);
        Ok(())
    }

    fn expand(&mut self, number: u32) -> Result<(), Stopped> {
        let state = unpack(self.program, self.seen.get(number as usize));
        self.findings.add(
            number as usize,
            self.late_steps,
            state.is_still(),
            state.has_ended(self.servers),
            state.has_fault(),
        );
        for mover in events(&state) {
            let mut next = state.clone();
            let is_late = make(self.program, &mut next, mover);
            self.findings.transitions += 1;
            self.reach(&next, is_late, number, mover)?;
        }
        Ok(())
    }

    pub fn run(&mut self) -> Result<(), Stopped> {
        self.reach(&State::new(self.program), false, NOBODY, END_OF_ROUND)?;
        while !self.now.is_empty() {
            while let Some(number) = self.now.pop() {
                let way = &mut self.ways[number as usize];
                if !std::mem::replace(&mut way.is_expanded, true) {
                    self.expand(number)?;
                }
            }
            self.now = std::mem::take(&mut self.later);
            self.late_steps += 1;
        }
        self.findings.states = self.seen.len();
        Ok(())
    }

    /// A schedule that leads to a state, for turns of one step.
    pub fn schedule(&self, mut number: usize) -> String {
        let mut movers = Vec::new();
        while self.ways[number].parent != NOBODY {
            movers.push(self.ways[number].mover);
            number = self.ways[number].parent as usize;
        }
        let mut state = State::new(self.program);
        let mut rounds = vec![Vec::new()];
        for mover in movers.into_iter().rev() {
            if mover == END_OF_ROUND {
                rounds.push(Vec::new());
            } else {
                let process = &state.processes[usize::from(mover) - 1];
                let is_of_kernel = self.program.is_of_kernel(process);
                let letter = if is_of_kernel { 'K' } else { 'P' };
                rounds
                    .last_mut()
                    .expect("a round")
                    .push(format!("{letter}{mover}"));
            }
            make(self.program, &mut state, mover);
        }
        let lines = rounds.iter().map(|round| round.join(" ") + "\n");
        lines.collect()
    }
}
