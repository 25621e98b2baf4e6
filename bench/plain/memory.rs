//! Words and temps. A word that is missing reads as 0, and nothing is written there. The words of all monitors come after those of
//! the process.

use crate::program::{Fill, Root};

/// Words and temps, and where those of the running activation and component begin.
pub struct Memory {
    pub words: Vec<i32>,
    pub temps: Vec<i32>,
    /// The first word of the running activation.
    pub base: u32,
    /// The first temp of the running activation.
    pub temp: u32,
    /// The first word of the running component.
    pub component: u32,
}

/// The words of all monitors. A private step reaches none: there they are `()`.
pub trait Shared {
    /// Whether they can be reached.
    const IN_REACH: bool;

    fn word(&self, at: usize) -> i32;

    fn set_word(&mut self, at: usize, n: i32);
}

impl Shared for () {
    const IN_REACH: bool = false;

    #[inline(always)]
    fn word(&self, _at: usize) -> i32 {
        0
    }

    #[inline(always)]
    fn set_word(&mut self, _at: usize, _n: i32) {}
}

impl Shared for Vec<i32> {
    const IN_REACH: bool = true;

    #[inline(always)]
    fn word(&self, at: usize) -> i32 {
        self.get(at).copied().unwrap_or(0)
    }

    #[inline(always)]
    fn set_word(&mut self, at: usize, n: i32) {
        if let Some(word) = self.get_mut(at) {
            *word = n;
        }
    }
}

/// What a step reads.
pub struct Reach<'a, S> {
    pub memory: &'a Memory,
    pub shared: &'a S,
}

impl<S> Clone for Reach<'_, S> {
    #[inline(always)]
    fn clone(&self) -> Self {
        *self
    }
}

impl<S> Copy for Reach<'_, S> {}

impl<S: Shared> Reach<'_, S> {
    /// The word at a place, or 0 where it is missing.
    #[inline(always)]
    pub fn word(self, at: usize) -> i32 {
        match self.memory.words.get(at) {
            Some(word) => *word,
            None => self.shared.word(at - self.memory.words.len()),
        }
    }
}

impl Memory {
    /// The process's own word at a place, or 0 where it is missing.
    #[inline(always)]
    pub fn word(&self, at: usize) -> i32 {
        self.words.get(at).copied().unwrap_or(0)
    }

    #[inline(always)]
    pub fn set_word<S: Shared>(&mut self, shared: &mut S, at: usize, n: i32) {
        match self.words.get_mut(at) {
            Some(word) => *word = n,
            None => shared.set_word(at - self.words.len(), n),
        }
    }

    #[inline(always)]
    pub fn temp(&self, temp: usize) -> i32 {
        self.temps.get(temp).copied().unwrap_or(0)
    }

    #[inline(always)]
    pub fn set_temp(&mut self, temp: usize, n: i32) {
        if let Some(word) = self.temps.get_mut(temp) {
            *word = n;
        }
    }

    #[inline(always)]
    pub fn local(&self, at: u32) -> usize {
        self.base as usize + at as usize
    }

    #[inline(always)]
    pub fn member(&self, at: u32) -> usize {
        self.component as usize + at as usize
    }

    #[inline(always)]
    pub fn root_place(&self, root: Root) -> usize {
        match root {
            Root::Local(at) => self.local(at),
            Root::Member(at) => self.member(at),
            Root::Through(parameter) => self.word(self.local(parameter)).max(0) as usize,
        }
    }

    /// Copies words, of the process itself in one piece and others one by one. The two blocks don't overlap.
    pub fn copy_words<S: Shared>(&mut self, shared: &mut S, to: usize, from: usize, count: usize) {
        if from.max(to) + count <= self.words.len() {
            self.words.copy_within(from..from + count, to);
            return;
        }
        for k in 0..count {
            let reach = Reach {
                memory: self,
                shared: &*shared,
            };
            let n = reach.word(from + k);
            self.set_word(shared, to + k, n);
        }
    }

    pub fn start_words(&mut self, base: usize, starts: &[Fill]) {
        for start in starts {
            let first = base + start.at as usize;
            if let Some(words) = self.words.get_mut(first..first + start.count as usize) {
                words.fill(start.value);
            }
        }
    }
}
