//! States: what a program's processes and its kernel have at one moment.
//!
//! What is displayed and the count of rounds are left out.

use crate::program::{NodeId, Program};

/// Addresses from here on are those of monitors' words. Those before are a process's own.
pub const SHARED: u32 = 1 << 20;

#[derive(Clone, Copy, PartialEq, Eq, Debug)]
pub enum Activity {
    Running,
    Ended,
    /// The number of the fault, from 1 to 9.
    Faulted(u8),
}

/// What an end mark keeps of the caller.
#[derive(Clone, Copy, PartialEq, Eq, Debug)]
pub struct Frame {
    /// The call or the `init`.
    pub node: NodeId,
    pub base: u32,
    pub component: u32,
    pub gate: u32,
}

#[derive(Clone, PartialEq, Eq, Debug)]
pub struct Process {
    pub activity: Activity,
    /// The node of its next task.
    pub at: NodeId,
    /// The first word of the running activation.
    pub base: u32,
    /// The address of the running component.
    pub component: u32,
    /// The innermost monitor that its end marks name, or 0.
    pub gate: u32,
    /// How much of its input it has taken.
    pub consumed: u32,
    /// The end marks, outermost first.
    pub frames: Vec<Frame>,
    /// Its own variables, then for each activation its variables, counters and answers.
    pub words: Vec<i32>,
}

#[derive(Clone, Copy, PartialEq, Eq, Debug)]
pub enum Holder {
    Unset,
    Free,
    Process(u32),
}

#[derive(Clone, PartialEq, Eq, Debug)]
pub struct Gate {
    pub holder: Holder,
    /// In the order in which they asked.
    pub askers: Vec<u32>,
}

#[derive(Clone, Copy, PartialEq, Eq, Debug)]
pub enum Stage {
    Unstarted,
    /// Started in the running round.
    Fresh,
    Begun,
    Asking(u32),
    Delayed(u32),
}

/// Gates, stages, and the words of all monitors. Lists begin with number 1.
#[derive(Clone, PartialEq, Eq, Debug)]
pub struct Kernel {
    pub words: Vec<i32>,
    pub gates: Vec<Gate>,
    pub stages: Vec<Stage>,
}

#[derive(Clone, PartialEq, Eq, Debug)]
pub struct State {
    pub kernel: Kernel,
    pub processes: Vec<Process>,
}

impl Process {
    /// A process before its first step.
    pub fn new(program: &Program, number: u32) -> Process {
        let start = &program.processes[number as usize - 1];
        Process {
            activity: Activity::Running,
            at: start.start,
            base: start.words.len() as u32,
            component: 0,
            gate: 0,
            consumed: 0,
            frames: Vec::new(),
            words: start.words.iter().map(|word| word.value).collect(),
        }
    }

    /// Whether a step of its own comes next, if the kernel lets it run.
    pub fn is_running(&self) -> bool {
        self.activity == Activity::Running
    }
}

impl Kernel {
    pub fn new(program: &Program) -> Kernel {
        let unset = || Gate {
            holder: Holder::Unset,
            askers: Vec::new(),
        };
        let mut stages = vec![Stage::Unstarted; program.processes.len()];
        stages[0] = Stage::Begun;
        Kernel {
            words: program.shared.iter().map(|word| word.value).collect(),
            gates: program.monitors.iter().map(|_| unset()).collect(),
            stages,
        }
    }

    pub fn has_fresh(&self) -> bool {
        self.stages.contains(&Stage::Fresh)
    }

    /// The end of a round.
    pub fn close_round(&mut self) {
        for stage in &mut self.stages {
            if *stage == Stage::Fresh {
                *stage = Stage::Begun;
            }
        }
    }

    pub fn gate(&mut self, monitor: u32) -> &mut Gate {
        &mut self.gates[monitor as usize - 1]
    }

    pub fn set_stage(&mut self, process: u32, stage: Stage) {
        self.stages[process as usize - 1] = stage;
    }

    /// The first asker holds the gate, or it is free.
    pub fn pass_on(&mut self, monitor: u32) {
        let gate = self.gate(monitor);
        if gate.askers.is_empty() {
            gate.holder = Holder::Free;
        } else {
            let first = gate.askers.remove(0);
            self.hand_to(monitor, first);
        }
    }

    /// A process that was asking or delayed holds the gate and is ready.
    pub fn hand_to(&mut self, monitor: u32, process: u32) {
        self.gate(monitor).holder = Holder::Process(process);
        self.set_stage(process, Stage::Begun);
    }

    /// The process holds the gate, or asks for it.
    pub fn enter(&mut self, process: u32, monitor: u32) {
        let gate = self.gate(monitor);
        if let Holder::Process(_) = gate.holder {
            gate.askers.push(process);
            self.set_stage(process, Stage::Asking(monitor));
        } else {
            gate.holder = Holder::Process(process);
        }
    }
}

impl State {
    pub fn new(program: &Program) -> State {
        let numbers = 1..=program.processes.len() as u32;
        State {
            kernel: Kernel::new(program),
            processes: numbers
                .map(|number| Process::new(program, number))
                .collect(),
        }
    }

    /// Whether the process has a next step.
    pub fn is_ready(&self, number: u32) -> bool {
        let index = number as usize - 1;
        self.kernel.stages[index] == Stage::Begun && self.processes[index].is_running()
    }

    pub fn numbers(&self) -> impl Iterator<Item = u32> {
        1..=self.processes.len() as u32
    }

    /// Whether nothing ever happens again.
    pub fn is_still(&self) -> bool {
        !self.kernel.has_fresh() && !self.numbers().any(|number| self.is_ready(number))
    }

    /// Whether each process has ended, or is a server and is delayed.
    pub fn has_ended(&self, servers: &[u32]) -> bool {
        self.numbers().all(|number| {
            let index = number as usize - 1;
            let is_delayed = matches!(self.kernel.stages[index], Stage::Delayed(_));
            self.processes[index].activity == Activity::Ended
                || is_delayed && servers.contains(&number)
        })
    }

    pub fn has_fault(&self) -> bool {
        self.processes
            .iter()
            .any(|process| matches!(process.activity, Activity::Faulted(_)))
    }
}
