//! One step of a process: its next task, and what the kernel does about it.
//!
//! A step that faults only changes the activity of its process, so everything is evaluated before
//! anything is written.

use crate::evaluation::{Fault, Reading};
use crate::program::{Action, Bounds, Counting, Node, NodeId, Program, Spot, Term};
use crate::state::{Activity, Kernel, Process, Stage, State, SHARED};

const QUEUE_TAKEN: Fault = 5;
const NO_LABEL: Fault = 8;

/// What `accept` reads at the end of the input.
const END_OF_INPUT: i32 = 25;

/// A process that a step started, with its parameters set.
pub struct Started {
    pub number: u32,
    pub process: Process,
}

/// A step of one process.
pub struct Step<'a> {
    pub program: &'a Program,
    pub kernel: &'a mut Kernel,
    pub process: &'a mut Process,
    pub number: u32,
    pub started: Option<Started>,
}

impl Program {
    /// Makes the next step of a process that is ready.
    pub fn step(&self, kernel: &mut Kernel, process: &mut Process, number: u32) -> Option<Started> {
        let mut step = Step {
            program: self,
            kernel,
            process,
            number,
            started: None,
        };
        if let Err(fault) = step.act() {
            step.process.activity = Activity::Faulted(fault);
        }
        step.started
    }

    /// The same within a state.
    pub fn step_in(&self, state: &mut State, number: u32) {
        let process = &mut state.processes[number as usize - 1];
        if let Some(started) = self.step(&mut state.kernel, process, number) {
            state.processes[started.number as usize - 1] = started.process;
        }
    }

    pub fn node(&self, process: &Process) -> &Node {
        &self.nodes[process.at as usize]
    }

    /// Whether the next step of a process that is ready is the kernel's.
    pub fn is_of_kernel(&self, process: &Process) -> bool {
        process.gate != 0 || self.node(process).is_of_kernel()
    }
}

/// What follows the last counter of a `for`.
fn next_counter(counting: &Counting, n: i32) -> i32 {
    if counting.is_down {
        n - 1
    } else {
        n + 1
    }
}

impl Step<'_> {
    pub fn reading(&self) -> Reading<'_> {
        Reading::new(
            self.process,
            self.kernel,
            self.program.node(self.process).answers,
        )
    }

    pub fn put(&mut self, address: u32, n: i32) {
        match address.checked_sub(SHARED) {
            Some(place) => self.kernel.words[place as usize] = n,
            None => self.process.words[address as usize] = n,
        }
    }

    pub fn put_all(&mut self, address: u32, words: &[i32]) {
        for (at, n) in (address..).zip(words) {
            self.put(at, *n);
        }
    }

    /// The answers of the statement are used up, and another node is next.
    pub fn go_to(&mut self, next: u32) {
        self.drop_operands(self.process.at);
        self.process.at = next;
    }

    pub fn drop_operands(&mut self, node: u32) {
        let operands = self.program.nodes[node as usize].operands;
        let left = self.process.words.len() - operands as usize;
        self.process.words.truncate(left);
    }

    fn act(&mut self) -> Result<(), Fault> {
        let program = self.program;
        let node = program.node(self.process);
        match &node.action {
            Action::Assign(target, bounds, value) => self.assign(target, *bounds, value),
            Action::Copy(target, source, words) => self.copy(target, source, *words),
            Action::Test {
                condition,
                then,
                otherwise,
            } => self.test(condition, *then, *otherwise),
            Action::Case { selector, arms } => self.choose(selector, arms),
            Action::For {
                counting,
                first,
                last,
            } => self.count_from(counting, first, last),
            Action::ForNext(counting) => self.count_on(counting),
            Action::Cycle { body } => self.test(&Term::Constant(1), *body, *body),
            Action::Call {
                target,
                unit,
                arguments,
            } => self.call(target, *unit, arguments),
            Action::Init(component, arguments) => self.init(component, arguments),
            Action::Display(value) => self.display(value),
            Action::Accept(target, bounds) => self.accept(target, *bounds),
            Action::Delay(queue) => self.delay(queue),
            Action::Continue(queue) => self.resume(queue),
            Action::EndCall(result) => self.end(*result),
            Action::EndBody => self.end(None),
            Action::EndProcess => {
                self.process.activity = Activity::Ended;
                Ok(())
            }
        }
    }

    pub fn next(&self) -> NodeId {
        self.program.node(self.process).next
    }

    fn assign(&mut self, target: &Spot, bounds: Bounds, value: &Term) -> Result<(), Fault> {
        let at = self.reading().address(target)?;
        let n = bounds.check(self.reading().value(value)?)?;
        self.go_to(self.next());
        self.put(at, n);
        Ok(())
    }

    fn copy(&mut self, target: &Spot, source: &Spot, words: u32) -> Result<(), Fault> {
        let at = self.reading().address(target)?;
        let from = self.reading().address(source)?;
        let copied = self.words(from, words);
        self.go_to(self.next());
        self.put_all(at, &copied);
        Ok(())
    }

    fn test(&mut self, condition: &Term, then: NodeId, otherwise: NodeId) -> Result<(), Fault> {
        let holds = self.reading().value(condition)? == 1;
        self.go_to(if holds { then } else { otherwise });
        Ok(())
    }

    fn choose(&mut self, selector: &Term, arms: &[(Vec<i32>, NodeId)]) -> Result<(), Fault> {
        let n = self.reading().value(selector)?;
        let arm = arms.iter().find(|(labels, _)| labels.contains(&n));
        self.go_to(arm.ok_or(NO_LABEL)?.1);
        Ok(())
    }

    // ---- Standard procedures

    /// What is displayed isn't kept.
    fn display(&mut self, value: &Term) -> Result<(), Fault> {
        self.reading().value(value)?;
        self.go_to(self.next());
        Ok(())
    }

    fn accept(&mut self, target: &Spot, bounds: Bounds) -> Result<(), Fault> {
        let at = self.reading().address(target)?;
        let input = &self.program.processes[self.number as usize - 1].input;
        let byte = input.get(self.process.consumed as usize);
        let n = bounds.check(byte.map_or(END_OF_INPUT, |byte| i32::from(*byte)))?;
        self.go_to(self.next());
        self.put(at, n);
        self.process.consumed += u32::from(byte.is_some());
        Ok(())
    }

    fn delay(&mut self, queue: &Spot) -> Result<(), Fault> {
        let at = self.reading().address(queue)?;
        if self.reading().word(at) != 0 {
            return Err(QUEUE_TAKEN);
        }
        self.go_to(self.next());
        self.put(at, self.number as i32);
        let monitor = self.process.gate;
        self.kernel.set_stage(self.number, Stage::Delayed(monitor));
        self.kernel.pass_on(monitor);
        Ok(())
    }

    /// `continue`: the entry returns, and whoever is in the queue holds the gate.
    fn resume(&mut self, queue: &Spot) -> Result<(), Fault> {
        let at = self.reading().address(queue)?;
        let resumed = self.reading().word(at);
        let monitor = self.give_back(self.result_of_entry())?;
        self.put(at, 0);
        match resumed {
            0 => self.kernel.pass_on(monitor),
            process => self.kernel.hand_to(monitor, process as u32),
        }
        Ok(())
    }

    // ---- Loops

    fn count_from(&mut self, counting: &Counting, first: &Term, last: &Term) -> Result<(), Fault> {
        let first = self.reading().value(first)?;
        let last = self.reading().value(last)?;
        let is_past = if counting.is_down {
            first < last
        } else {
            first > last
        };
        if is_past {
            self.go_to(self.next());
            return Ok(());
        }
        let at = self.reading().address(&counting.variable)?;
        let n = counting.bounds.check(first)?;
        self.go_to(counting.body);
        self.put(at, n);
        self.process.words.extend([first, last]);
        Ok(())
    }

    /// The counter and the last one are on top of the words.
    fn count_on(&mut self, counting: &Counting) -> Result<(), Fault> {
        let top = self.process.words.len();
        let (counter, last) = (self.process.words[top - 2], self.process.words[top - 1]);
        if counter == last {
            self.process.words.truncate(top - 2);
            self.process.at = self.next();
            return Ok(());
        }
        let at = self.reading().address(&counting.variable)?;
        let n = counting.bounds.check(next_counter(counting, counter))?;
        self.put(at, n);
        self.process.words[top - 2] = n;
        self.process.at = counting.body;
        Ok(())
    }
}
