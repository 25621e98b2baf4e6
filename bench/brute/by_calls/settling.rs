//! Moves: a late step, and then eager steps until there are none.
//!
//! A move is made of runs. In a run one process makes steps until its next step is late or it can't
//! move. What a run does depends only on the kernel and the process, so runs are remembered.

use super::parts::{way, Parts, Way};
use crate::findings::Stopped;
use crate::program::Program;
use crate::state::{Kernel, Process, Stage, State};

/// A process that runs for more steps is taken to run forever.
const MAX_RUN_STEPS: u32 = 1_000_000;
const REMEMBERED_RUNS: usize = 1 << 16;

/// A run of a process that changed no other one.
#[derive(Clone, Copy, Default)]
struct Run {
    /// The number of the process, or 0 if nothing is remembered here.
    process: u32,
    kernel: u32,
    part: u32,
    next_kernel: u32,
    next_part: u32,
}

pub struct Settler<'p> {
    program: &'p Program,
    pub parts: Parts<'p>,
    runs: Vec<Run>,
    kernel: Kernel,
    process: Process,
}

impl Run {
    /// The place of a run among those remembered.
    fn slot(process: u32, kernel: u32, part: u32) -> usize {
        let mixed = (u64::from(kernel) << 32 | u64::from(part) << 8 | u64::from(process))
            .wrapping_mul(0x9e37_79b9_7f4a_7c15);
        (mixed >> 40) as usize % REMEMBERED_RUNS
    }
}

impl<'p> Settler<'p> {
    pub fn new(program: &'p Program) -> Settler<'p> {
        Settler {
            program,
            parts: Parts::new(program),
            runs: vec![Run::default(); REMEMBERED_RUNS],
            kernel: Kernel::new(program),
            process: Process::new(program, 1),
        }
    }

    /// The numbers of the parts of the start, settled.
    pub fn start(&mut self) -> Result<Vec<u32>, Stopped> {
        let mut state = State::new(self.program);
        let mut numbers = vec![self.parts.add_kernel(&state.kernel)];
        for (number, process) in (1..).zip(&mut state.processes) {
            numbers.push(self.parts.add_process(number, process));
        }
        self.settle(&mut numbers)?;
        Ok(numbers)
    }

    /// Makes the late step of a process in a settled state, and settles.
    pub fn advance(&mut self, state: &mut [u32], mover: usize) -> Result<(), Stopped> {
        let before = state[0];
        self.run(state, mover)?;
        if self.parts.has_woken(before, state[0]) {
            self.settle(state)?;
        }
        Ok(())
    }

    fn settle(&mut self, state: &mut [u32]) -> Result<(), Stopped> {
        while let Some(mover) = self.parts.first_mover(state, Way::Eager) {
            self.run(state, mover)?;
        }
        Ok(())
    }

    fn run(&mut self, state: &mut [u32], mover: usize) -> Result<(), Stopped> {
        let (process, kernel, part) = (mover as u32, state[0], state[mover]);
        let slot = Run::slot(process, kernel, part);
        let known = self.runs[slot];
        if (known.process, known.kernel, known.part) == (process, kernel, part) {
            state[0] = known.next_kernel;
            state[mover] = known.next_part;
            return Ok(());
        }
        let starts_others = self.make_steps(state, mover)?;
        if !starts_others {
            self.runs[slot] = Run {
                process,
                kernel,
                part,
                next_kernel: state[0],
                next_part: state[mover],
            };
        }
        Ok(())
    }

    /// Makes a step and those that follow at once. Returns whether it started a process.
    fn make_steps(&mut self, state: &mut [u32], mover: usize) -> Result<bool, Stopped> {
        self.parts.unpack_kernel(state[0], &mut self.kernel);
        self.parts
            .unpack_process(mover, state[mover], &mut self.process);
        let mut starts_others = false;
        for _ in 0..MAX_RUN_STEPS {
            let (kernel, process) = (&mut self.kernel, &mut self.process);
            if let Some(mut started) = self.program.step(kernel, process, mover as u32) {
                let number = started.number as usize;
                state[number] = self.parts.add_process(number, &mut started.process);
                self.kernel.close_round();
                starts_others = true;
            }
            let is_ready = self.kernel.stages[mover - 1] == Stage::Begun;
            if !is_ready || way(self.program, &self.process) != Way::Eager {
                state[0] = self.parts.add_kernel(&self.kernel);
                state[mover] = self.parts.add_process(mover, &mut self.process);
                return Ok(starts_others);
            }
        }
        Err(Stopped::Endless(mover as u32))
    }

    /// The bytes of memory of the parts and the remembered runs.
    pub fn memory(&self) -> usize {
        self.parts.memory() + std::mem::size_of::<Run>() * self.runs.capacity()
    }
}
