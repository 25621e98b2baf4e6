//! Replays of schedules with turns of one step, and reports of the state after them.

use crate::program::{Program, Word};
use crate::state::{Activity, Holder, Kernel, Stage, State};

/// Makes the step of an event, if its process has a next step of that kind.
fn make(program: &Program, state: &mut State, event: &str) -> Option<()> {
    let is_of_kernel = event.starts_with('K');
    let number: u32 = event.strip_prefix(['P', 'K'])?.parse().ok()?;
    let process = state.processes.get((number as usize).checked_sub(1)?)?;
    if state.is_ready(number) && program.is_of_kernel(process) == is_of_kernel {
        program.step_in(state, number);
    }
    Some(())
}

/// The state after the rounds of a schedule, or none if it is malformed.
pub fn replay(program: &Program, schedule: &str) -> Option<State> {
    let mut state = State::new(program);
    for round in schedule.lines() {
        for event in round.split(' ').filter(|event| !event.is_empty()) {
            make(program, &mut state, event)?;
        }
        state.kernel.close_round();
    }
    Some(state)
}

fn status(state: &State, number: u32) -> String {
    let index = number as usize - 1;
    match (state.processes[index].activity, state.kernel.stages[index]) {
        (Activity::Ended, _) => "ended".into(),
        (Activity::Faulted(fault), _) => format!("fault {fault}"),
        (_, Stage::Unstarted | Stage::Fresh) => "unstarted".into(),
        (_, Stage::Begun) => "ready".into(),
        (_, Stage::Asking(monitor)) => format!("asking {monitor}"),
        (_, Stage::Delayed(monitor)) => format!("delayed {monitor}"),
    }
}

fn gate(kernel: &Kernel, number: usize) -> String {
    let gate = &kernel.gates[number];
    let holder = match gate.holder {
        Holder::Unset => "unset".into(),
        Holder::Free => "free".into(),
        Holder::Process(process) => format!("held {process}"),
    };
    let askers: Vec<String> = gate.askers.iter().map(u32::to_string).collect();
    let list = if askers.is_empty() {
        "-".into()
    } else {
        askers.join(" ")
    };
    format!("{holder} askers {list}")
}

/// The values of the words that are reported.
fn values(words: &[i32], starts: &[Word]) -> String {
    let pairs = words
        .iter()
        .zip(starts)
        .filter(|(_, word)| word.is_reported);
    pairs.map(|(value, _)| format!(" {value}")).collect()
}

/// A line for each process and each monitor, with the values of its variables in the order of the
/// report that cpm writes. Monitors are known by their numbers, and an empty queue has 0.
pub fn report(program: &Program, state: &State) -> String {
    let processes = state.numbers().map(|number| {
        let index = number as usize - 1;
        let values = values(
            &state.processes[index].words,
            &program.processes[index].words,
        );
        format!("process {number} {}:{values}\n", status(state, number))
    });
    let monitors = (0..program.monitors.len()).map(|number| {
        let from = program.monitors[number] as usize;
        let next = program.monitors.get(number + 1).map(|at| *at as usize);
        let own = from..next.unwrap_or(program.shared.len());
        let values = values(&state.kernel.words[own.clone()], &program.shared[own]);
        let gate = gate(&state.kernel, number);
        format!("monitor {} {gate}:{values}\n", number + 1)
    });
    processes.chain(monitors).collect()
}
