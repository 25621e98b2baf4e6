//! Calls, returns and `init`: what puts end marks and takes them away.

use crate::evaluation::Fault;
use crate::lowering::UNSET;
use crate::program::{Action, Argument, Initialised, NodeId, Target};
use crate::state::{Frame, Holder, Process, Stage, SHARED};
use crate::steps::{Started, Step};

const NOT_INITIALISED: Fault = 6;
const INITIALISED_TWICE: Fault = 7;
const NO_RESULT: Fault = 9;

impl Step<'_> {
    // ---- Calls and returns

    /// The address of the component that is called, and the monitor that is entered, or 0.
    fn target(&self, target: &Target) -> Result<(u32, u32), Fault> {
        let reading = self.reading();
        let class = |address: u32| match reading.word(address) {
            0 => Err(NOT_INITIALISED),
            _ => Ok((address, 0)),
        };
        match target {
            Target::Own => Ok((self.process.component, 0)),
            Target::ClassVariable(offset) => class(self.process.component + offset),
            Target::ClassRight(offset) => class(reading.member(*offset) as u32),
            Target::Monitor(number) => self.monitor(*number),
            Target::MonitorRight(offset) => self.monitor(reading.member(*offset) as u32),
        }
    }

    fn address_of_monitor(&self, number: u32) -> u32 {
        SHARED + self.program.monitors[number as usize - 1]
    }

    fn monitor(&self, number: u32) -> Result<(u32, u32), Fault> {
        if self.kernel.gates[number as usize - 1].holder == Holder::Unset {
            return Err(NOT_INITIALISED);
        }
        Ok((self.address_of_monitor(number), number))
    }

    pub fn words(&self, address: u32, count: u32) -> Vec<i32> {
        let reading = self.reading();
        let all = address..address + count;
        all.map(|at| reading.word(at)).collect()
    }

    /// The words of the parameters, in order.
    fn arguments(&self, arguments: &[Argument]) -> Result<Vec<i32>, Fault> {
        let reading = self.reading();
        let mut words = Vec::new();
        for argument in arguments {
            match argument {
                Argument::Value(term, bounds) => words.push(bounds.check(reading.value(term)?)?),
                Argument::Copy(spot, count) => {
                    words.extend(self.words(reading.address(spot)?, *count));
                }
                Argument::Reference(spot) => words.push(reading.address(spot)? as i32),
                Argument::Monitor(number) => words.push(*number as i32),
                Argument::Class(offset) => words.push((self.process.component + offset) as i32),
                Argument::Right(offset) => words.push(reading.member(*offset)),
            }
        }
        Ok(words)
    }

    /// Pushes an end mark. The process then runs in a component.
    fn enter(&mut self, component: u32, monitor: u32, start: u32) {
        self.process.frames.push(Frame {
            node: self.process.at,
            base: self.process.base,
            component: self.process.component,
            gate: self.process.gate,
        });
        self.process.base = self.process.words.len() as u32;
        self.process.component = component;
        if monitor != 0 {
            self.process.gate = monitor;
        }
        self.process.at = start;
    }

    pub fn call(
        &mut self,
        target: &Target,
        unit: u32,
        arguments: &[Argument],
    ) -> Result<(), Fault> {
        let (component, monitor) = self.target(target)?;
        let parameters = self.arguments(arguments)?;
        let unit = &self.program.units[unit as usize];
        self.enter(component, monitor, unit.start);
        self.process.words.extend(parameters);
        self.process.words.extend(&unit.starts);
        if monitor != 0 {
            self.kernel.enter(self.number, monitor);
        }
        Ok(())
    }

    /// The place of the result of the entry that a `continue` ends.
    pub fn result_of_entry(&self) -> Option<u32> {
        let frame = self.process.frames.last()?;
        match self.program.nodes[frame.node as usize].action {
            Action::Call { unit, .. } => self.program.units[unit as usize].result,
            _ => None,
        }
    }

    /// Takes the innermost end mark away, with the result at this place of the activation, and
    /// returns the monitor that is left, or 0.
    pub fn give_back(&mut self, result: Option<u32>) -> Result<u32, Fault> {
        let base = self.process.base;
        let value = result.map(|offset| self.process.words[(base + offset) as usize]);
        if value == Some(UNSET) {
            return Err(NO_RESULT);
        }
        let frame = self.process.frames.pop().expect("an end mark");
        let node = &self.program.nodes[frame.node as usize];
        let left = if node.is_late() { self.process.gate } else { 0 };
        self.process.words.truncate(base as usize);
        self.drop_operands(frame.node);
        self.process.words.extend(value);
        self.process.base = frame.base;
        self.process.component = frame.component;
        self.process.gate = frame.gate;
        self.process.at = node.next;
        Ok(left)
    }

    /// The end of a routine or of a component's body.
    pub fn end(&mut self, result: Option<u32>) -> Result<(), Fault> {
        let left = self.give_back(result)?;
        if left != 0 {
            self.kernel.pass_on(left);
        }
        Ok(())
    }

    // ---- Initialisation

    pub fn init(&mut self, component: &Initialised, arguments: &[Argument]) -> Result<(), Fault> {
        match *component {
            Initialised::Class { offset, body } => self.init_class(offset, body, arguments),
            Initialised::Monitor { number, body } => self.init_monitor(number, body, arguments),
            Initialised::Process { number } => self.init_process(number, arguments),
        }
    }

    fn init_class(&mut self, offset: u32, body: NodeId, list: &[Argument]) -> Result<(), Fault> {
        let at = self.process.component + offset;
        if self.reading().word(at) != 0 {
            return Err(INITIALISED_TWICE);
        }
        let parameters = self.arguments(list)?;
        self.enter(at, 0, body);
        self.put_all(at + 1, &parameters);
        self.put(at, 1);
        Ok(())
    }

    /// The process runs the body as the holder of the gate.
    fn init_monitor(&mut self, number: u32, body: NodeId, list: &[Argument]) -> Result<(), Fault> {
        if self.kernel.gate(number).holder != Holder::Unset {
            return Err(INITIALISED_TWICE);
        }
        let parameters = self.arguments(list)?;
        let at = self.address_of_monitor(number);
        self.enter(at, number, body);
        self.put_all(at, &parameters);
        self.kernel.gate(number).holder = Holder::Process(self.number);
        Ok(())
    }

    fn init_process(&mut self, number: u32, list: &[Argument]) -> Result<(), Fault> {
        if self.kernel.stages[number as usize - 1] != Stage::Unstarted {
            return Err(INITIALISED_TWICE);
        }
        let parameters = self.arguments(list)?;
        let mut process = Process::new(self.program, number);
        process.words[..parameters.len()].copy_from_slice(&parameters);
        self.kernel.set_stage(number, Stage::Fresh);
        self.started = Some(Started { number, process });
        self.go_to(self.next());
        Ok(())
    }
}
