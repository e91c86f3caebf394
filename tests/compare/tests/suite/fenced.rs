//! Words or places to lend out, with a fence on both sides that a call must leave alone.

const FENCE: usize = 32;

/// What a slice is made of, and what its fence holds.
pub trait Item: Copy + PartialEq {
    const SENTINEL: Self;
}

impl Item for u32 {
    const SENTINEL: u32 = 0xdead_beef;
}

impl Item for u16 {
    const SENTINEL: u16 = 0xbeef;
}

pub struct Fenced<T>(Vec<T>);

impl<T: Item> Fenced<T> {
    pub fn new(words: &[T]) -> Fenced<T> {
        Fenced([&[T::SENTINEL; FENCE], words, &[T::SENTINEL; FENCE]].concat())
    }

    /// Words that hold nothing but the sentinel.
    pub fn blank(length: usize) -> Fenced<T> {
        Fenced::new(&vec![T::SENTINEL; length])
    }

    pub fn words(&self) -> &[T] {
        &self.0[FENCE..self.0.len() - FENCE]
    }

    pub fn words_mut(&mut self) -> &mut [T] {
        let end = self.0.len() - FENCE;
        &mut self.0[FENCE..end]
    }

    /// Whether nothing was written beside the words.
    pub fn is_intact(&self) -> bool {
        let (before, after) = (&self.0[..FENCE], &self.0[self.0.len() - FENCE..]);
        before.iter().chain(after).all(|&word| word == T::SENTINEL)
    }
}
