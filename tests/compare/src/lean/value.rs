//! Values in words.

use super::memory::CELL;
use super::sheet::{Type, MOST_LABELS};
use reference::answer::Refusal;
use std::ops::Range;

const INTEGER: u32 = 1;
const ERROR: u32 = 2;
pub const LEFT: u32 = 3;
pub const RIGHT: u32 = 4;
pub const PACKAGE: u32 = 5;
pub const PAIR: u32 = 6;

/// Why a pack or an unpack fails.
#[derive(Clone, Copy)]
pub enum Failure {
    InsufficientAuth = 1,
    IllegalFlow = 2,
    TypeMismatch = 3,
}

/// The words of a value, zeros after them, and how many they are.
#[derive(Clone, Copy, Default)]
pub struct Value {
    pub words: [u32; CELL],
    length: usize,
}

impl Value {
    /// The value that words hold, zeros after it included. Labels are below `labels`.
    pub fn decode(words: &[u32], labels: usize) -> Option<Value> {
        let length = length(words, labels)?;
        let words: [u32; CELL] = words.try_into().ok()?;
        words[length..].iter().all(|&word| word == 0).then_some(Value { words, length })
    }

    fn of<const N: usize>(start: [u32; N]) -> Value {
        let mut words = [0; CELL];
        words[..N].copy_from_slice(&start);
        Value { words, length: N }
    }

    pub fn integer(n: u32) -> Value {
        Value::of([INTEGER, n])
    }

    pub fn failed(failure: Failure) -> Value {
        Value::of([RIGHT, ERROR, failure as u32])
    }

    /// Puts words before a value, where there is room.
    pub fn prefix<const N: usize>(&mut self, start: [u32; N]) -> Result<(), Refusal> {
        if self.length + N > CELL {
            return Err(Refusal::ValueTooLong);
        }
        self.words.copy_within(..CELL - N, N);
        self.words[..N].copy_from_slice(&start);
        self.length += N;
        Ok(())
    }

    /// Puts the words of another value behind these, where there is room.
    pub fn append(&mut self, other: &Value) -> Result<(), Refusal> {
        let length = self.length + other.length;
        if length > CELL {
            return Err(Refusal::ValueTooLong);
        }
        self.words[self.length..length].copy_from_slice(&other.words[..other.length]);
        self.length = length;
        Ok(())
    }

    /// Takes the first N words away.
    pub fn strip<const N: usize>(&mut self) {
        self.words.copy_within(N.., 0);
        self.words[CELL - N..].fill(0);
        self.length -= N;
    }

    /// Leaves the first part of a pair.
    pub fn keep_first(&mut self) {
        let first = extent(&self.words[1..]);
        self.keep(1..1 + first);
    }

    /// Leaves the second part of a pair.
    pub fn keep_second(&mut self) {
        let first = extent(&self.words[1..]);
        self.keep(1 + first..self.length);
    }

    fn keep(&mut self, part: Range<usize>) {
        let length = part.len();
        self.words.copy_within(part, 0);
        self.words[length..].fill(0);
        self.length = length;
    }
}

/// The length of the value that words start with, where they do. Labels are below `labels`.
fn length(words: &[u32], labels: usize) -> Option<usize> {
    let mut rest = words;
    // the values that are still to come: a pair has one more
    let mut due = 1;
    while due > 0 {
        rest = match *rest {
            [INTEGER, _, ref after @ ..] | [ERROR, 1..=3, ref after @ ..] => {
                due -= 1;
                after
            }
            [LEFT | RIGHT, ref inner @ ..] => inner,
            [PACKAGE, label, ref content @ ..] if (label as usize) < labels => content,
            [PAIR, ref parts @ ..] => {
                due += 1;
                parts
            }
            _ => return None,
        }
    }
    Some(words.len() - rest.len())
}

/// The length of the value that words start with.
fn extent(words: &[u32]) -> usize {
    length(words, MOST_LABELS).expect("words of a value")
}

/// Whether the value that words start with has a type.
pub fn has_type(mut words: &[u32], types: &[Type], mut ty: u8) -> bool {
    while let [word, ref inner @ ..] = *words {
        (ty, words) = match (word, types[usize::from(ty)]) {
            (LEFT, Type::Sum(left, _)) => (left, inner),
            (RIGHT, Type::Sum(_, right)) => (right, inner),
            (PAIR, Type::Pair(first, second)) if has_type(inner, types, first) => {
                (second, &inner[extent(inner)..])
            }
            (INTEGER, Type::Int) | (ERROR, Type::Error) | (PACKAGE, Type::Package) => return true,
            _ => return false,
        }
    }
    false
}

/// Takes the contents out of a value that are hidden from who reads the labels in `read`: one zero word
/// stands for each, and the next part follows it.
pub fn hide(words: &mut [u32], read: u32) {
    let (mut at, mut due) = (0, 1);
    while due > 0 {
        at += match words[at..] {
            [LEFT | RIGHT, ..] => 1,
            [PAIR, ..] => {
                due += 1;
                1
            }
            [PACKAGE, label, ..] if read >> label & 1 == 1 => 2,
            [PACKAGE, _, ref content @ ..] => {
                let after = at + 2 + extent(content);
                words[at + 2] = 0;
                words.copy_within(after.., at + 3);
                let end = words.len() - (after - (at + 3));
                words[end..].fill(0);
                due -= 1;
                3
            }
            _ => {
                due -= 1;
                2
            }
        }
    }
}
