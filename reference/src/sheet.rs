//! What a sheet says.

use crate::label::{Label, Reading};
use crate::principals::Principals;
use crate::types::{Type, TypeId};

pub type LabelId = usize;
pub type LocationId = usize;

/// The declared type and label of a location.
#[derive(Clone, Copy, Debug, PartialEq, Eq)]
pub struct Location {
    pub ty: TypeId,
    pub label: LabelId,
}

#[derive(Clone, Debug, PartialEq, Eq)]
pub struct Sheet {
    /// The number n of principals.
    pub principals: usize,
    /// How a group reads the labels.
    pub reading: Reading,
    /// The given types, then those made by `T` and `Q`, in the order of their lines.
    pub types: Vec<Type>,
    pub labels: Vec<Label>,
    pub locations: Vec<Location>,
}

impl Sheet {
    /// The label of a location.
    pub fn label_at(&self, location: LocationId) -> &Label {
        &self.labels[self.locations[location].label]
    }

    /// Whether the group reads a label, by the rule of this sheet.
    pub fn reads(&self, group: Principals, label: LabelId) -> bool {
        self.labels[label].read_by(self.reading, group)
    }

    /// The two parts of a sum, or nothing for another type.
    pub fn parts(&self, ty: TypeId) -> Option<(TypeId, TypeId)> {
        match self.types[ty] {
            Type::Sum(left, right) => Some((left, right)),
            _ => None,
        }
    }

    /// The two parts of a pair, or nothing for another type.
    pub fn pair_parts(&self, ty: TypeId) -> Option<(TypeId, TypeId)> {
        match self.types[ty] {
            Type::Pair(first, second) => Some((first, second)),
            _ => None,
        }
    }

    /// Two sums or two pairs with the same parts, else two labels with the same effective sets. A
    /// sum and a pair are different types whatever their parts.
    pub fn repeat(&self) -> Option<Repeat> {
        let types = equal_pair(&self.types).map(|(first, again)| Repeat::Type { first, again });
        let labels = || equal_pair(&self.labels);
        types.or_else(|| labels().map(|(first, again)| Repeat::Label { first, again }))
    }
}

/// What a sheet has twice.
#[derive(Clone, Copy, Debug, PartialEq, Eq)]
pub enum Repeat {
    Type { first: TypeId, again: TypeId },
    Label { first: LabelId, again: LabelId },
}

/// The first of the things that an earlier one equals, after that one.
fn equal_pair<T: PartialEq>(things: &[T]) -> Option<(usize, usize)> {
    (0..things.len()).find_map(|again| {
        let first = things[..again].iter().position(|thing| *thing == things[again])?;
        Some((first, again))
    })
}
