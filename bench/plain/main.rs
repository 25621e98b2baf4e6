//! A plain interpreter of operations, in the shape of the one in cpm but without its proofs: bench/steps.py compares the two.
//!
//! `plain TEXT ROUNDS` makes so many rounds of `texts/TEXT.cp`, in turns of 10,000 steps, from the second one on, and prints the
//! variables, one a line. The programs are written by hand, as cpm compiles the texts. What none of them needs is left out: the
//! initial process, rights to classes, input, output and most operators.
//!
//! - `program`: terms and spots, operations, and units of code.
//! - `memory`, `evaluation`: words, the values of terms and the places of spots.
//! - `process`: steps and private turns. `kernel`: gates, kernel turns and rounds.
//! - `assembly`, `ring`: pieces of programs. `sorting`, `records`, `matrices`, `nested`, `calls`, `classes`, `buffer`, `buffers`:
//!   the programs.

mod assembly;
mod buffer;
mod buffers;
mod calls;
mod classes;
mod evaluation;
mod kernel;
mod matrices;
mod memory;
mod nested;
mod process;
mod program;
mod records;
mod ring;
mod sorting;

use kernel::Machine;
use process::Activity;
use program::Program;
use std::env;
use std::process::ExitCode;

fn run(program: &Program, rounds: u32) -> ExitCode {
    let mut machine = Machine::new(program);
    for _ in 0..rounds {
        machine.round(10_000);
    }
    for n in machine.variables() {
        println!("{n}");
    }
    let processes = &machine.processes;
    if processes
        .iter()
        .all(|process| process.activity == Activity::Running)
    {
        ExitCode::SUCCESS
    } else {
        ExitCode::FAILURE
    }
}

fn main() -> ExitCode {
    let words: Vec<String> = env::args().skip(1).collect();
    let [text, rounds] = words.as_slice() else {
        eprintln!(
            "usage: plain sorting|records|matrices|nested|calls|classes|buffer|buffers ROUNDS"
        );
        return ExitCode::FAILURE;
    };
    let program = match text.as_str() {
        "sorting" => sorting::program(),
        "records" => records::program(),
        "matrices" => matrices::program(),
        "nested" => nested::program(),
        "calls" => calls::program(),
        "classes" => classes::program(),
        "buffer" => buffer::program(),
        "buffers" => buffers::program(),
        _ => return ExitCode::FAILURE,
    };
    run(&program, rounds.parse().unwrap_or(1))
}
