//! A plain search over all schedules of a program, written by hand without proofs.
//!
//! `brute FILE` tries each order of single steps of the processes. With `--by-calls` it tries only
//! which process calls a monitor next, and makes all other steps at once. Both print the number of
//! states, and for still states that have ended, are stuck or have a fault their number and the
//! least number of late steps before one. A late step is a call of a monitor or `init` of one.
//!
//! - `program`, `lowering`: the tree of plain_front, with offsets for names and nodes for tasks.
//! - `state`, `evaluation`, `steps`, `calls`: one step of a process, as docs/meaning.md says.
//! - `packing`, `byte_set`: states as bytes, and sets of them.
//! - `single_events`, `by_calls`: the two searches. `findings`: what they print.
//! - `replays`: the state after a schedule, to compare it with that of `cpm replay`.

#[path = "../plain_front/checker/mod.rs"]
mod checker;
#[path = "../plain_front/parser/mod.rs"]
mod parser;
#[path = "../plain_front/scanner.rs"]
mod scanner;
#[path = "../plain_front/token.rs"]
mod token;
#[path = "../plain_front/tree.rs"]
mod tree;

mod by_calls;
mod byte_set;
mod calls;
mod evaluation;
mod findings;
mod lowering;
mod options;
mod packing;
mod program;
mod replays;
mod single_events;
mod state;
mod steps;

use findings::Stopped;
use options::Options;
use program::Program;
use std::process::ExitCode;
use std::time::Instant;

/// Exits other than 0: the program is refused, the arguments are wrong, the search was stopped.
const REFUSED: u8 = 1;
const USAGE: u8 = 2;
const STOPPED: u8 = 7;

/// Why there are no findings: a line for standard error, and the exit.
type Failed = (String, u8);

fn stopped(why: Stopped) -> Failed {
    let line = match why {
        Stopped::States(limit) => format!("stopped: more than {limit} states"),
        Stopped::Endless(process) => format!("stopped: process {process} seems to run forever"),
    };
    (line, STOPPED)
}

fn lower(options: &Options) -> Result<Program, Failed> {
    let unreadable = |path: &str| (format!("{path} can't be read"), USAGE);
    let mut source = std::fs::read(&options.file).map_err(|_| unreadable(&options.file))?;
    let input = match &options.input {
        None => Vec::new(),
        Some(path) => std::fs::read(path).map_err(|_| unreadable(path))?,
    };
    let inputs: Vec<Vec<u8>> = input
        .split(|byte| *byte == 28)
        .map(<[u8]>::to_vec)
        .collect();
    let judged = scanner::scan(&mut source).and_then(|tokens| {
        let tree = parser::parse(&source, tokens)?;
        checker::check(&tree)?;
        Ok(lowering::lower(&tree, &inputs))
    });
    match judged {
        Ok(Some(program)) => Ok(program),
        Ok(None) => Err(("stopped: the program uses the clock".into(), STOPPED)),
        Err(why) => {
            let line = format!("refused {}{} at {}", why.letter, why.number, why.at);
            Err((line, REFUSED))
        }
    }
}

/// What the search by calls prints, or the callers before the first state of a kind.
fn search_by_calls(program: &Program, options: &Options) -> Result<String, Stopped> {
    let began = Instant::now();
    let mut search = by_calls::Search::new(program, options.limit);
    search.run()?;
    let Some(kind) = &options.schedule else {
        let seconds = began.elapsed().as_secs_f64();
        let needs = search.needs();
        return Ok(search.findings.text() + &needs + &format!("seconds {seconds:.3}\n"));
    };
    let found = search.findings.of_kind(kind).and_then(|found| found.first);
    let callers = found.map(|(_, state)| search.callers(state));
    let numbers: Vec<String> = callers.iter().flatten().map(u8::to_string).collect();
    Ok(numbers.join(" ") + "\n")
}

/// What the search over single events prints, or the schedule of the first state of a kind.
fn search_single_events(program: &Program, options: &Options) -> Result<String, Stopped> {
    let mut search = single_events::Search::new(program, &options.servers, options.limit);
    search.run()?;
    let Some(kind) = &options.schedule else {
        return Ok(search.findings.text());
    };
    let found = search.findings.of_kind(kind).and_then(|found| found.first);
    let schedule = found.map(|(_, state)| search.schedule(state));
    Ok(schedule.unwrap_or_default())
}

fn replay(program: &Program, path: &str) -> Result<String, Failed> {
    let schedule = std::fs::read_to_string(path);
    let schedule = schedule.map_err(|_| (format!("{path} can't be read"), USAGE))?;
    let state = replays::replay(program, &schedule);
    let malformed = || (format!("{path} is no schedule"), USAGE);
    Ok(replays::report(program, &state.ok_or_else(malformed)?))
}

fn run(options: &Options) -> Result<String, Failed> {
    let program = lower(options)?;
    if let Some(path) = &options.replayed {
        return replay(&program, path);
    }
    let found = if options.by_calls {
        search_by_calls(&program, options)
    } else {
        search_single_events(&program, options)
    };
    found.map_err(stopped)
}

fn main() -> ExitCode {
    let Some(options) = Options::read(std::env::args().skip(1)) else {
        eprintln!("{}", options::USAGE);
        return ExitCode::from(USAGE);
    };
    match run(&options) {
        Ok(text) => {
            print!("{text}");
            ExitCode::SUCCESS
        }
        Err((line, exit)) => {
            eprintln!("{line}");
            ExitCode::from(exit)
        }
    }
}
