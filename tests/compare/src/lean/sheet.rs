//! What a sheet says.

use super::label::Label;
use super::list::List;
use super::memory::CELL;
use reference::answer::Refusal;

pub const INT: u8 = 0;
pub const ERROR: u8 = 1;
pub const PACKAGE: u8 = 2;
/// int+int, the type of a guard.
pub const CHOICE: u8 = 3;
/// pkg+error, the type of a pack.
pub const PACKED: u8 = 4;

pub const MOST_TYPES: usize = 32;
pub const MOST_LABELS: usize = 32;
pub const MOST_LOCATIONS: usize = 64;

#[derive(Clone, Copy, PartialEq, Eq)]
pub enum Type {
    Int,
    Error,
    Package,
    Sum(u8, u8),
    Pair(u8, u8),
}

#[derive(Clone, Copy)]
pub struct Location {
    pub ty: u8,
    pub label: u8,
}

/// The labels that an authority reads and writes, bit a for label a.
#[derive(Clone, Copy)]
pub struct Rights {
    pub read: u32,
    pub written: u32,
}

pub struct Sheet {
    /// The set of all principals.
    pub everyone: u16,
    /// Whether a group reads only what one of its members reads alone.
    pub alone: bool,
    pub types: List<Type, MOST_TYPES>,
    pub labels: List<Label, MOST_LABELS>,
    pub locations: List<Location, MOST_LOCATIONS>,
}

impl Sheet {
    /// A sheet to be read into.
    pub fn empty() -> Sheet {
        Sheet {
            everyone: 0,
            alone: false,
            types: List::new(Type::Int),
            labels: List::new(Label::open(0)),
            locations: List::new(Location { ty: 0, label: 0 }),
        }
    }

    /// The parts of a sum.
    pub fn parts(&self, ty: u8) -> Option<(u8, u8)> {
        match self.types[usize::from(ty)] {
            Type::Sum(left, right) => Some((left, right)),
            _ => None,
        }
    }

    /// The parts of a pair.
    pub fn pair_parts(&self, ty: u8) -> Option<(u8, u8)> {
        match self.types[usize::from(ty)] {
            Type::Pair(first, second) => Some((first, second)),
            _ => None,
        }
    }

    /// The labels that a group reads, bit a for label a.
    pub fn read_by(&self, group: u16) -> u32 {
        if self.alone {
            self.mask(|label| label.single_readers() & group != 0)
        } else {
            self.mask(|label| label.read_together_by(group))
        }
    }

    pub fn rights(&self, authority: u16) -> Rights {
        let written = self.mask(|label| label.written_by(authority));
        Rights { read: self.read_by(authority), written }
    }

    fn mask(&self, test: impl Fn(&Label) -> bool) -> u32 {
        self.labels.iter().rev().fold(0, |mask, label| mask << 1 | u32::from(test(label)))
    }

    /// Whether a label has the sets of an earlier one.
    pub fn repeats_label(&self) -> bool {
        self.labels.iter().enumerate().any(|(i, label)| self.labels[..i].contains(label))
    }

    /// 3.
    pub fn require_known(&self, group: u16) -> Result<(), Refusal> {
        if group & !self.everyone == 0 {
            Ok(())
        } else {
            Err(Refusal::UnknownPrincipal)
        }
    }

    /// 7.
    pub fn require_length(&self, words: &[u32]) -> Result<(), Refusal> {
        if words.len() == self.locations.len() * CELL {
            Ok(())
        } else {
            Err(Refusal::SliceLength)
        }
    }
}
