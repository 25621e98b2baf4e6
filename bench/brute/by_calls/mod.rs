//! The search by calls: only late steps are tried, and eager steps are made at once.
//!
//! It keeps only settled states, breadth first, each as the numbers of its parts.

mod parts;
mod settling;

use crate::byte_set::ByteSet;
use crate::findings::{Findings, Stopped};
use crate::packing::{put_all, Reader, MAX_NUMBER_BYTES};
use crate::program::Program;
use parts::Way;
use settling::Settler;

pub struct Search<'p> {
    settler: Settler<'p>,
    limit: usize,
    seen: ByteSet,
    /// For each state the one before it, and who made the late step.
    parents: Vec<u32>,
    movers: Vec<u8>,
    /// Room for the bytes of a state.
    key: Vec<u8>,
    pub findings: Findings,
}

impl<'p> Search<'p> {
    pub fn new(program: &'p Program, limit: usize) -> Search<'p> {
        Search {
            settler: Settler::new(program),
            limit,
            seen: ByteSet::default(),
            parents: Vec::new(),
            movers: Vec::new(),
            key: vec![0; MAX_NUMBER_BYTES * (program.processes.len() + 1)],
            findings: Findings::default(),
        }
    }

    /// Adds a settled state that so many late steps lead to, if it is new.
    fn add(
        &mut self,
        state: &[u32],
        late_steps: u32,
        parent: usize,
        mover: usize,
    ) -> Result<(), Stopped> {
        let length = put_all(&mut self.key, state);
        let (number, is_new) = self.seen.insert(&self.key[..length]);
        if !is_new {
            return Ok(());
        }
        if number >= self.limit {
            return Err(Stopped::States(self.limit));
        }
        self.parents.push(parent as u32);
        self.movers.push(mover as u8);
        let parts = &self.settler.parts;
        let mut ways = (1..).zip(&state[1..]).map(|(p, part)| parts.way(p, *part));
        let has_fault = ways.clone().any(|way| way == Way::Faulted);
        let has_ended = ways.all(|way| way == Way::Ended);
        let is_still = parts.first_mover(state, Way::Late).is_none();
        self.findings
            .add(number, late_steps, is_still, has_ended, has_fault);
        Ok(())
    }

    fn expand(
        &mut self,
        number: usize,
        late_steps: u32,
        state: &mut [u32],
        next: &mut [u32],
    ) -> Result<(), Stopped> {
        let mut from = Reader::new(self.seen.get(number));
        state.iter_mut().for_each(|part| *part = from.number());
        for mover in 1..state.len() {
            let parts = &self.settler.parts;
            if !parts.may_move(state, mover, Way::Late) {
                continue;
            }
            next.copy_from_slice(state);
            self.settler.advance(next, mover)?;
            self.findings.transitions += 1;
            self.add(next, late_steps + 1, number, mover)?;
        }
        Ok(())
    }

    pub fn run(&mut self) -> Result<(), Stopped> {
        let mut state = self.settler.start()?;
        let mut next = state.clone();
        self.add(&state, 0, 0, 0)?;
        let (mut number, mut late_steps) = (0, 0);
        while number < self.seen.len() {
            let end_of_level = self.seen.len();
            while number < end_of_level {
                self.expand(number, late_steps, &mut state, &mut next)?;
                number += 1;
            }
            late_steps += 1;
        }
        self.findings.states = self.seen.len();
        Ok(())
    }

    /// The processes that make the late steps before a state.
    pub fn callers(&self, mut number: usize) -> Vec<u8> {
        let mut callers = Vec::new();
        while number != 0 {
            callers.push(self.movers[number]);
            number = self.parents[number] as usize;
        }
        callers.reverse();
        callers
    }

    /// Lines of what the search needs: parts, and bytes of memory.
    pub fn needs(&self) -> String {
        let Settler { parts, .. } = &self.settler;
        let keys = self.seen.memory() + 4 * self.parents.capacity() + self.movers.capacity();
        format!(
            "kernels {}\nparts {}\nbytes {}\n",
            parts.kernels(),
            parts.process_parts(),
            keys + self.settler.memory()
        )
    }
}
