//! The kernel: gates, what is known of processes, and rounds.

use crate::process::Process;
use crate::program::Program;
use std::collections::VecDeque;

/// What a step leaves to the kernel. Monitors are given by their numbers.
#[derive(Clone, Copy)]
pub enum Effect {
    None,
    Enters(u32),
    Leaves(u32),
    /// The process waits in the queue with this word.
    Delays {
        monitor: u32,
        queue: u32,
    },
    /// The process has left, and resumes the one with this number, or none if it is 0.
    Continues {
        monitor: u32,
        resumed: i32,
    },
}

#[derive(Clone, Copy, PartialEq, Eq)]
pub enum Holder {
    /// The monitor isn't initialised.
    Unset,
    Free,
    Process(u32),
}

pub struct Gate {
    pub holder: Holder,
    askers: VecDeque<u32>,
}

#[derive(Clone, Copy, PartialEq, Eq)]
enum Stage {
    Begun,
    Asking(u32),
    Delayed { monitor: u32, queue: u32 },
}

struct Kernel {
    shared: Vec<i32>,
    gates: Vec<Gate>,
    stages: Vec<Stage>,
}

impl Kernel {
    fn gate(&mut self, monitor: u32) -> Option<&mut Gate> {
        self.gates.get_mut((monitor as usize).wrapping_sub(1))
    }

    fn set_stage(&mut self, process: u32, stage: Stage) {
        if let Some(place) = self.stages.get_mut((process as usize).wrapping_sub(1)) {
            *place = stage;
        }
    }

    fn is_begun(&self, process: u32) -> bool {
        self.stages.get((process as usize).wrapping_sub(1)) == Some(&Stage::Begun)
    }

    fn enter(&mut self, process: u32, monitor: u32) {
        let Some(gate) = self.gate(monitor) else {
            return;
        };
        if let Holder::Process(_) = gate.holder {
            gate.askers.push_back(process);
            self.set_stage(process, Stage::Asking(monitor));
        } else {
            gate.holder = Holder::Process(process);
        }
    }

    /// Gives the gate to the asker that came first, or frees it.
    fn pass_on(&mut self, monitor: u32) {
        let Some(gate) = self.gate(monitor) else {
            return;
        };
        match gate.askers.pop_front() {
            Some(process) => {
                gate.holder = Holder::Process(process);
                self.set_stage(process, Stage::Begun);
            }
            None => gate.holder = Holder::Free,
        }
    }

    fn resume(&mut self, monitor: u32, resumed: i32) {
        if resumed <= 0 {
            self.pass_on(monitor);
            return;
        }
        let process = resumed as u32;
        if let Some(gate) = self.gate(monitor) {
            gate.holder = Holder::Process(process);
        }
        self.set_stage(process, Stage::Begun);
    }

    #[inline(always)]
    fn apply(&mut self, process: u32, effect: Effect) {
        match effect {
            Effect::None => {}
            Effect::Enters(monitor) => self.enter(process, monitor),
            Effect::Leaves(monitor) => self.pass_on(monitor),
            Effect::Delays { monitor, queue } => {
                self.set_stage(process, Stage::Delayed { monitor, queue });
                self.pass_on(monitor);
            }
            Effect::Continues { monitor, resumed } => self.resume(monitor, resumed),
        }
    }

    /// As many steps as the turn has, while the next one is the kernel's and may be made.
    #[inline(never)]
    fn turn(&mut self, program: &Program, process: &mut Process, number: u32, steps: u32) {
        for _ in 0..steps {
            if !process.needs_kernel(program) || !self.is_begun(number) {
                return;
            }
            let effect = process.kernel_step(program, &mut self.shared, &self.gates);
            self.apply(number, effect);
        }
    }
}

/// The processes of a program, and its kernel.
pub struct Machine<'p> {
    program: &'p Program,
    pub processes: Vec<Process>,
    kernel: Kernel,
}

impl Machine<'_> {
    /// All monitors are initialised, and all processes have begun.
    pub fn new(program: &Program) -> Machine<'_> {
        let processes = (1..).zip(&program.processes);
        let free = || Gate {
            holder: Holder::Free,
            askers: VecDeque::with_capacity(program.processes.len()),
        };
        Machine {
            program,
            processes: processes
                .map(|(number, start)| Process::new(number, start))
                .collect(),
            kernel: Kernel {
                shared: vec![0; program.shared],
                gates: program.monitors.iter().map(|_| free()).collect(),
                stages: vec![Stage::Begun; program.processes.len()],
            },
        }
    }

    /// The private turns of all processes, and then their kernel turns by number.
    pub fn round(&mut self, steps: u32) {
        for process in &mut self.processes {
            process.turn(self.program, steps);
        }
        for (number, process) in (1..).zip(&mut self.processes) {
            if process.needs_kernel(self.program) {
                self.kernel.turn(self.program, process, number, steps);
            }
        }
    }

    /// The variables of all processes, and then those of all monitors.
    pub fn variables(&self) -> impl Iterator<Item = i32> + '_ {
        let processes = self.processes.iter().zip(&self.program.processes);
        let own = processes.flat_map(|(process, start)| {
            let places = start.variables.iter().cloned().flatten();
            places.map(|at| process.memory.word(at))
        });
        let shared = self.program.shared_variables.iter().cloned().flatten();
        own.chain(shared.map(|at| self.kernel.shared[at]))
    }
}
