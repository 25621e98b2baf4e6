//! A plain front end, written by hand without proofs: bench/front.py compares `cpm check` with it.
//!
//! `plain_front FILE` scans, parses and checks a text of Concurrent Pascal as docs/language.md says, and prints `accepted` or the first
//! refusal. Names are slices of the text. They are looked up in sorted maps, since texts can be written whose names collide in a hash map.
//!
//! - `token`, `scanner`: the tokens of a text.
//! - `tree`, `parser`: its syntax tree.
//! - `checker`: the rules, in one walk over the tree, which ends after the first declaration or statement that breaks one.

mod checker;
mod parser;
mod scanner;
mod token;
mod tree;

use std::fs::File;
use std::io::{self, Read};
use std::process::ExitCode;
use token::Refusal;

/// The most that is read: one byte more than a text may have.
const MOST_READ: u64 = 1_048_577;

fn read(path: &str) -> io::Result<Vec<u8>> {
    let mut text = Vec::new();
    File::open(path)?.take(MOST_READ).read_to_end(&mut text)?;
    Ok(text)
}

fn check(text: &mut [u8]) -> Result<(), Refusal> {
    let tokens = scanner::scan(text)?;
    let tree = parser::parse(text, tokens)?;
    checker::check(&tree)
}

fn main() -> ExitCode {
    let Some(mut text) = std::env::args().nth(1).and_then(|path| read(&path).ok()) else {
        eprintln!("usage: plain_front FILE");
        return ExitCode::from(2);
    };
    match check(&mut text) {
        Ok(()) => {
            println!("accepted");
            ExitCode::SUCCESS
        }
        Err(Refusal { letter, number, at }) => {
            println!("refused {letter}{number} at {at}");
            ExitCode::FAILURE
        }
    }
}
