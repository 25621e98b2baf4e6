//! A process: its steps, and its private turns.

use crate::kernel::{Effect, Gate, Holder};
use crate::memory::{Memory, Reach, Shared};
use crate::program::{
    Argument, Call, Counting, Fault, Operation, Program, Spot, Start, Target, Term, Unit,
};
use std::mem;

#[derive(Clone, Copy, PartialEq, Eq)]
pub enum Activity {
    Running,
    Ended,
    Faulted(Fault),
}

/// What a call keeps of its caller.
#[derive(Clone, Copy)]
struct Frame {
    place: u32,
    base: u32,
    temp: u32,
    component: u32,
    /// The temp of the caller that takes the value.
    into: u32,
    /// The monitor that was entered, or 0.
    gate: u32,
    /// The gate that it holds, or 0.
    held: u32,
}

/// A component that is called: its first word, and the number of a monitor, or 0.
#[derive(Clone, Copy)]
struct Called {
    component: u32,
    gate: u32,
}

pub struct Process {
    number: u32,
    pub activity: Activity,
    /// The place of its next operation.
    place: u32,
    /// The innermost gate of a monitor that it holds, or 0. A step is private where it holds none.
    gate: u32,
    /// What its last step leaves to the kernel.
    effect: Effect,
    pub memory: Memory,
    frames: Vec<Frame>,
}

/// The word of a result that was never set.
pub const UNSET: i32 = i32::MIN;

impl Process {
    pub fn new(number: u32, start: &Start) -> Process {
        let mut words = start.parameters.clone();
        words.resize(start.words, 0);
        Process {
            number,
            activity: Activity::Running,
            place: start.place,
            gate: 0,
            effect: Effect::None,
            memory: Memory {
                words,
                temps: vec![0; start.temps],
                base: start.own,
                temp: 0,
                component: 0,
            },
            frames: Vec::with_capacity(start.frames),
        }
    }

    /// As many steps as the turn has, while the next one is private.
    #[inline(never)]
    pub fn turn(&mut self, program: &Program, steps: u32) {
        for _ in 0..steps {
            if !self.step(program) {
                return;
            }
        }
    }

    /// One step, if the next one is private. Tells whether it was.
    #[inline(always)]
    fn step(&mut self, program: &Program) -> bool {
        if self.activity != Activity::Running || self.gate != 0 {
            return false;
        }
        let Some(operation) = program.operations.get(self.place as usize) else {
            return false;
        };
        match self.act(operation, program, &mut (), &[]) {
            Ok(()) => true,
            Err(fault) => self.stop(fault),
        }
    }

    /// Ends the process by a fault, unless the step is the kernel's. Tells whether it was made.
    fn stop(&mut self, fault: Fault) -> bool {
        if fault == Fault::KernelStep {
            return false;
        }
        self.activity = Activity::Faulted(fault);
        true
    }

    /// Whether the next step is the kernel's.
    #[inline(always)]
    pub fn needs_kernel(&self, program: &Program) -> bool {
        if self.activity != Activity::Running {
            return false;
        }
        if self.gate != 0 {
            return true;
        }
        match program.operations.get(self.place as usize) {
            Some(Operation::Procedure { call, .. } | Operation::Function { call, .. }) => {
                matches!(call.target, Target::MonitorRight(_))
            }
            _ => false,
        }
    }

    /// One step of the kernel, and what it leaves to it.
    #[inline(always)]
    pub fn kernel_step(
        &mut self,
        program: &Program,
        shared: &mut Vec<i32>,
        gates: &[Gate],
    ) -> Effect {
        let Some(operation) = program.operations.get(self.place as usize) else {
            return Effect::None;
        };
        if let Err(fault) = self.act(operation, program, shared, gates) {
            self.activity = Activity::Faulted(fault);
        }
        mem::replace(&mut self.effect, Effect::None)
    }

    #[inline(always)]
    fn act<S: Shared>(
        &mut self,
        operation: &Operation,
        program: &Program,
        shared: &mut S,
        gates: &[Gate],
    ) -> Result<(), Fault> {
        let reach = Reach {
            memory: &self.memory,
            shared: &*shared,
        };
        match operation {
            Operation::Set {
                to,
                bounds,
                value,
                next,
            } => {
                let at = to.place(reach)?;
                let n = bounds.check(value.value_here(reach)?)?;
                self.memory.set_word(shared, at, n);
                self.place = *next;
            }
            Operation::SetResult {
                bounds,
                value,
                next,
            } => {
                let n = bounds.check(value.value(reach)?)?;
                self.memory.set_word(shared, self.memory.base as usize, n);
                self.place = *next;
            }
            Operation::CopyWords {
                to,
                from,
                size,
                next,
            } => {
                let at = to.place(reach)?;
                let from = from.place(reach)?;
                self.memory.copy_words(shared, at, from, *size as usize);
                self.place = *next;
            }
            Operation::Test { value, yes, no } => {
                self.place = if value.value_here(reach)? == 1 {
                    *yes
                } else {
                    *no
                };
            }
            Operation::Case { value, table } => {
                let n = value.value(reach)?;
                self.place = table.place(n).ok_or(Fault::NoLabel)?;
            }
            Operation::For {
                counting,
                first,
                last,
            } => self.count_from(shared, counting, first, last)?,
            Operation::ForNext(counting) => self.count_on(shared, counting)?,
            Operation::Cycle { body } => self.place = *body,
            Operation::Procedure { call, next } => {
                self.call(program, shared, gates, call, 0, *next)?
            }
            Operation::Function { call, into, next } => {
                self.call(program, shared, gates, call, *into, *next)?
            }
            Operation::Return { function } => self.give_back(*function)?,
            Operation::InitClass { call, next } => self.initialise(program, shared, call, *next)?,
            Operation::Delay { queue, next } => self.delay(shared, queue, *next)?,
            Operation::Continue { queue } => self.leave_by_continue(shared, queue)?,
            Operation::EndBody => self.give_back(false)?,
            Operation::End => self.activity = Activity::Ended,
        }
        Ok(())
    }

    fn count_from<S: Shared>(
        &mut self,
        shared: &mut S,
        counting: &Counting,
        first: &Term,
        last: &Term,
    ) -> Result<(), Fault> {
        let n = first.value(self.reach(shared))?;
        let last = last.value(self.reach(shared))?;
        if last < n {
            self.place = counting.next;
            return Ok(());
        }
        self.count_to(shared, counting, n, last)
    }

    fn count_on<S: Shared>(&mut self, shared: &mut S, counting: &Counting) -> Result<(), Fault> {
        let temp = self.memory.temp as usize + counting.temp as usize;
        let n = self.memory.temp(temp);
        let last = self.memory.temp(temp + 1);
        if n == last {
            self.place = counting.next;
            return Ok(());
        }
        self.count_to(shared, counting, n.saturating_add(1), last)
    }

    /// Begins the body with this counter.
    fn count_to<S: Shared>(
        &mut self,
        shared: &mut S,
        counting: &Counting,
        n: i32,
        last: i32,
    ) -> Result<(), Fault> {
        let n = counting.bounds.check(n)?;
        let at = self.memory.root_place(counting.variable);
        let temp = self.memory.temp as usize + counting.temp as usize;
        self.memory.set_word(shared, at, n);
        self.memory.set_temp(temp, n);
        self.memory.set_temp(temp + 1, last);
        self.place = counting.body;
        Ok(())
    }

    #[inline(always)]
    fn reach<'a, S>(&'a self, shared: &'a S) -> Reach<'a, S> {
        Reach {
            memory: &self.memory,
            shared,
        }
    }

    /// The component that is called, which must be initialised.
    #[inline(always)]
    fn called<S: Shared>(
        &self,
        program: &Program,
        gates: &[Gate],
        target: Target,
    ) -> Result<Called, Fault> {
        let component = self.memory.component;
        match target {
            Target::Own => Ok(Called { component, gate: 0 }),
            Target::Class(at) => {
                let component = component + at;
                match self.memory.word(component as usize) {
                    0 => Err(Fault::NotInitialised),
                    _ => Ok(Called { component, gate: 0 }),
                }
            }
            Target::MonitorRight(at) => self.called_monitor::<S>(program, gates, at),
        }
    }

    fn called_monitor<S: Shared>(
        &self,
        program: &Program,
        gates: &[Gate],
        at: u32,
    ) -> Result<Called, Fault> {
        if !S::IN_REACH {
            return Err(Fault::KernelStep);
        }
        let gate = self.memory.word(self.memory.member(at)).max(0) as u32;
        let index = (gate as usize).wrapping_sub(1);
        match (gates.get(index), program.monitors.get(index)) {
            (Some(found), Some(start)) if found.holder != Holder::Unset => Ok(Called {
                component: self.memory.words.len() as u32 + start,
                gate,
            }),
            _ => Err(Fault::NotInitialised),
        }
    }

    fn call<S: Shared>(
        &mut self,
        program: &Program,
        shared: &mut S,
        gates: &[Gate],
        call: &Call,
        into: u32,
        next: u32,
    ) -> Result<(), Fault> {
        let called = self.called::<S>(program, gates, call.target)?;
        let Some(unit) = program.units.get(call.unit as usize) else {
            return Ok(());
        };
        let to = self.memory.local(call.words);
        self.pass(shared, to, &call.arguments)?;
        self.memory.start_words(to, &unit.starts);
        self.enter(unit, call, called, into, next);
        Ok(())
    }

    /// Initialises a class and enters its body.
    fn initialise<S: Shared>(
        &mut self,
        program: &Program,
        shared: &mut S,
        call: &Call,
        next: u32,
    ) -> Result<(), Fault> {
        let Target::Class(at) = call.target else {
            return Ok(());
        };
        let component = self.memory.component + at;
        if self.memory.word(component as usize) != 0 {
            return Err(Fault::InitialisedTwice);
        }
        let Some(unit) = program.units.get(call.unit as usize) else {
            return Ok(());
        };
        self.pass(shared, component as usize, &call.arguments)?;
        self.memory.set_word(shared, component as usize, 1);
        self.enter(unit, call, Called { component, gate: 0 }, 0, next);
        Ok(())
    }

    fn pass<S: Shared>(
        &mut self,
        shared: &mut S,
        to: usize,
        arguments: &[Argument],
    ) -> Result<(), Fault> {
        for argument in arguments {
            match argument {
                Argument::Value { at, bounds, term } => {
                    let n = bounds.check(term.value_here(self.reach(shared))?)?;
                    self.memory.set_word(shared, to + *at as usize, n);
                }
                Argument::Copy { at, size, from } => {
                    let from = from.place(self.reach(shared))?;
                    self.memory
                        .copy_words(shared, to + *at as usize, from, *size as usize);
                }
                Argument::Reference { at, to: spot } => {
                    let place = spot.place(self.reach(shared))?;
                    let word = i32::try_from(place).unwrap_or(0);
                    self.memory.set_word(shared, to + *at as usize, word);
                }
            }
        }
        Ok(())
    }

    /// The unit runs in the component, and its frame keeps what the caller needs.
    fn enter(&mut self, unit: &Unit, call: &Call, called: Called, into: u32, next: u32) {
        self.frames.push(Frame {
            place: next,
            base: self.memory.base,
            temp: self.memory.temp,
            component: self.memory.component,
            into,
            gate: called.gate,
            held: self.gate,
        });
        self.place = unit.start;
        self.memory.base += call.words;
        self.memory.temp += call.temps;
        self.memory.component = called.component;
        if called.gate != 0 {
            self.gate = called.gate;
            self.effect = Effect::Enters(called.gate);
        }
    }

    /// Returns to the caller, with the value of a function.
    fn give_back(&mut self, function: bool) -> Result<(), Fault> {
        let Some(frame) = self.frames.last().copied() else {
            return Ok(());
        };
        if function {
            let value = self.memory.word(self.memory.base as usize);
            if value == UNSET {
                return Err(Fault::NoResult);
            }
            self.memory
                .set_temp(frame.temp as usize + frame.into as usize, value);
        }
        self.leave(frame);
        if frame.gate != 0 {
            self.effect = Effect::Leaves(frame.gate);
        }
        Ok(())
    }

    #[inline(always)]
    fn leave(&mut self, frame: Frame) {
        self.frames.pop();
        self.place = frame.place;
        self.gate = frame.held;
        self.memory.base = frame.base;
        self.memory.temp = frame.temp;
        self.memory.component = frame.component;
    }

    /// Waits in a queue of the monitor that it is in.
    fn delay<S: Shared>(&mut self, shared: &mut S, queue: &Spot, next: u32) -> Result<(), Fault> {
        let reach = self.reach(shared);
        let at = queue.place(reach)?;
        if reach.word(at) > 0 {
            return Err(Fault::QueueTaken);
        }
        self.memory.set_word(shared, at, self.number as i32);
        self.place = next;
        self.effect = Effect::Delays {
            monitor: self.gate,
            queue: at as u32,
        };
        Ok(())
    }

    fn leave_by_continue<S: Shared>(&mut self, shared: &mut S, queue: &Spot) -> Result<(), Fault> {
        let reach = self.reach(shared);
        let at = queue.place(reach)?;
        let resumed = reach.word(at);
        let Some(frame) = self.frames.last().copied() else {
            return Ok(());
        };
        self.leave(frame);
        self.memory.set_word(shared, at, 0);
        self.effect = Effect::Continues {
            monitor: frame.gate,
            resumed,
        };
        Ok(())
    }
}
