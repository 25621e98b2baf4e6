//! A set of byte strings, numbered in the order in which they were added.
//!
//! The bytes of all members are in one list. The table has for each member half of its hash and its
//! number, so that most members that are not meant are passed over without a look at their bytes.

#[derive(Default)]
pub struct ByteSet {
    bytes: Vec<u8>,
    ends: Vec<u32>,
    table: Vec<u64>,
}

const EMPTY: u64 = u64::MAX;
const FIRST_SLOTS: usize = 1024;
const MULTIPLIER: u64 = 0x9e37_79b9_7f4a_7c15;

fn mix(hash: u64, chunk: u64) -> u64 {
    let product = u128::from(hash ^ chunk) * u128::from(MULTIPLIER);
    (product >> 64) as u64 ^ product as u64
}

/// Eight bytes of a key from a place on.
fn eight(key: &[u8], from: usize) -> u64 {
    let mut bytes = [0; 8];
    bytes.copy_from_slice(&key[from..from + 8]);
    u64::from_le_bytes(bytes)
}

/// Keys of eight bytes and more are read eight bytes at a time. The last eight may overlap others.
fn hash(key: &[u8]) -> u64 {
    let mut hash = key.len() as u64 + 1;
    if key.len() < 8 {
        let joined = key.iter().fold(0, |all, byte| all << 8 | u64::from(*byte));
        return mix(mix(hash, joined), MULTIPLIER);
    }
    let last = key.len() - 8;
    for from in (0..last).step_by(8) {
        hash = mix(hash, eight(key, from));
    }
    mix(mix(hash, eight(key, last)), MULTIPLIER)
}

impl ByteSet {
    pub fn len(&self) -> usize {
        self.ends.len()
    }

    pub fn get(&self, number: usize) -> &[u8] {
        let from = match number {
            0 => 0,
            _ => self.ends[number - 1],
        };
        &self.bytes[from as usize..self.ends[number] as usize]
    }

    /// The bytes of memory that it has.
    pub fn memory(&self) -> usize {
        self.bytes.capacity() + 4 * self.ends.capacity() + 8 * self.table.capacity()
    }

    /// The slot of a key, or the empty one where it belongs.
    fn slot(&self, key: &[u8], hash: u64) -> usize {
        let mask = self.table.len() - 1;
        let half = hash >> 32;
        let mut slot = hash as usize & mask;
        loop {
            let entry = self.table[slot];
            let is_here = || entry >> 32 == half && self.get(entry as u32 as usize) == key;
            if entry == EMPTY || is_here() {
                return slot;
            }
            slot = (slot + 1) & mask;
        }
    }

    fn grow(&mut self) {
        let slots = (2 * self.table.len()).max(FIRST_SLOTS);
        self.table = vec![EMPTY; slots];
        for number in 0..self.len() {
            let hash = hash(self.get(number));
            let mut slot = hash as usize & (slots - 1);
            while self.table[slot] != EMPTY {
                slot = (slot + 1) & (slots - 1);
            }
            self.table[slot] = hash >> 32 << 32 | number as u64;
        }
    }

    /// Adds a key. Returns its number, and whether it is new.
    pub fn insert(&mut self, key: &[u8]) -> (usize, bool) {
        if 3 * (self.len() + 1) > 2 * self.table.len() {
            self.grow();
        }
        let hash = hash(key);
        let slot = self.slot(key, hash);
        if self.table[slot] != EMPTY {
            return (self.table[slot] as u32 as usize, false);
        }
        let number = self.len();
        self.table[slot] = hash >> 32 << 32 | number as u64;
        self.bytes.extend_from_slice(key);
        let end = u32::try_from(self.bytes.len()).expect("less than 4 GiB of keys");
        self.ends.push(end);
        (number, true)
    }
}
