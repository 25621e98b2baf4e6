//! Prints names that collide under a hasher without a key: their hashes end in the same bits, as a table of the crate indexmap takes them.

use std::hash::{DefaultHasher, Hasher};

const NAMES: usize = 2_000;
const SAME_BITS: u64 = (1 << 11) - 1;

// SipHash-1-3 with the key 0 of a name's letters. The table adds both halves.
fn hash_of(name: &str) -> u64 {
    let mut hasher = DefaultHasher::new();
    hasher.write(name.as_bytes());
    let hash = hasher.finish();
    hash ^ hash >> 32
}

fn main() {
    let names = (0_u32..).map(|number| format!("x{number:07x}"));
    for name in names.filter(|name| hash_of(name) & SAME_BITS == 0).take(NAMES) {
        println!("{name}");
    }
}
