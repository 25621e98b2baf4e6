//! What a search found.

/// States of one kind: how many there are, and the first one with the fewest late steps before it.
#[derive(Default)]
pub struct Found {
    pub count: usize,
    /// The number of late steps, and the number of the state.
    pub first: Option<(u32, usize)>,
}

/// The states that a search found. A fault stops one process, and others may still move.
#[derive(Default)]
pub struct Findings {
    pub states: usize,
    pub transitions: usize,
    /// Still states in which all processes have ended.
    pub ended: Found,
    /// Other still states without a fault.
    pub stuck: Found,
    /// Still states with a fault.
    pub fault: Found,
    /// All states with a fault.
    pub faulted: Found,
}

/// Why a search was not finished.
pub enum Stopped {
    /// There are more states than this.
    States(usize),
    /// This process seems to run forever without a late step.
    Endless(u32),
}

impl Found {
    /// Adds a state. States are added in the order of their late steps.
    fn add(&mut self, late_steps: u32, state: usize) {
        self.count += 1;
        self.first.get_or_insert((late_steps, state));
    }

    fn line(&self, name: &str) -> String {
        match self.first {
            None => format!("{name} 0\n"),
            Some((late_steps, _)) => format!("{name} {} {late_steps}\n", self.count),
        }
    }
}

impl Findings {
    pub fn add(
        &mut self,
        state: usize,
        late_steps: u32,
        is_still: bool,
        has_ended: bool,
        has_fault: bool,
    ) {
        if has_fault {
            self.faulted.add(late_steps, state);
        }
        if !is_still {
            return;
        }
        let found = match (has_fault, has_ended) {
            (true, _) => &mut self.fault,
            (false, true) => &mut self.ended,
            (false, false) => &mut self.stuck,
        };
        found.add(late_steps, state);
    }

    /// The states of a kind, by its name.
    pub fn of_kind(&self, kind: &str) -> Option<&Found> {
        match kind {
            "ended" => Some(&self.ended),
            "stuck" => Some(&self.stuck),
            "fault" => Some(&self.fault),
            "faulted" => Some(&self.faulted),
            _ => None,
        }
    }

    /// A line for each count. A kind of states has its count and the least number of late steps.
    pub fn text(&self) -> String {
        let kinds = ["ended", "stuck", "fault", "faulted"];
        let lines = kinds.map(|kind| self.of_kind(kind).map(|found| found.line(kind)));
        let Findings {
            states,
            transitions,
            ..
        } = self;
        let first = format!("states {states}\ntransitions {transitions}\n");
        lines
            .into_iter()
            .flatten()
            .fold(first, |text, line| text + &line)
    }
}
