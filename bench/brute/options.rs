//! The arguments of the command line.

pub const USAGE: &str = "usage: brute [--by-calls] [--states LIMIT] [--input FILE] \
[--schedule ended|stuck|fault|faulted] [--servers N,..] [--replay SCHEDULE] FILE";

const DEFAULT_LIMIT: usize = 1_000_000;

pub struct Options {
    pub file: String,
    pub input: Option<String>,
    pub by_calls: bool,
    /// The processes that may wait in a queue forever. The search by calls has none.
    pub servers: Vec<u32>,
    /// The largest number of states.
    pub limit: usize,
    /// The kind of state whose schedule is printed in place of the counts.
    pub schedule: Option<String>,
    /// The file of a schedule that is replayed in place of a search.
    pub replayed: Option<String>,
}

impl Options {
    pub fn read(mut words: impl Iterator<Item = String>) -> Option<Options> {
        let mut options = Options {
            file: String::new(),
            input: None,
            by_calls: false,
            servers: Vec::new(),
            limit: DEFAULT_LIMIT,
            schedule: None,
            replayed: None,
        };
        while let Some(word) = words.next() {
            match word.as_str() {
                "--by-calls" => options.by_calls = true,
                "--servers" => {
                    let numbers = words.next()?;
                    let numbers = numbers.split(',').map(str::parse);
                    options.servers = numbers.collect::<Result<_, _>>().ok()?;
                }
                "--states" => options.limit = words.next()?.parse().ok()?,
                "--input" => options.input = Some(words.next()?),
                "--schedule" => options.schedule = Some(words.next()?),
                "--replay" => options.replayed = Some(words.next()?),
                _ if options.file.is_empty() => options.file = word,
                _ => return None,
            }
        }
        (!options.file.is_empty()).then_some(options)
    }
}
