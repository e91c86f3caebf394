//! Memories of the values that a sheet asks for.

use super::prng::Prng;
use reference::sheet::Sheet;
use reference::types::{Type, TypeId};
use reference::value::{Error, Value, MOST_WORDS};

/// Words for each location; a type without a value of 16 words gets zeros.
pub fn memory(prng: &mut Prng, sheet: &Sheet) -> Vec<u32> {
    let values = Values::of(sheet);
    let mut words = Vec::new();
    for location in &sheet.locations {
        let value = values.typed(prng, location.ty, MOST_WORDS);
        let mut place = value.map_or(Vec::new(), |value| value.words());
        place.resize(MOST_WORDS, 0);
        words.extend(place);
    }
    words
}

/// The fewest words of a value of each type.
pub(super) fn least_words(types: &[Type]) -> Vec<usize> {
    let mut least: Vec<usize> = Vec::new();
    for ty in types {
        least.push(match *ty {
            Type::Int | Type::Error => 2,
            Type::Package => 4,
            Type::Sum(left, right) => 1 + least[left].min(least[right]),
            Type::Pair(first, second) => 1 + least[first] + least[second],
        });
    }
    least
}

/// The values of a sheet.
pub struct Values<'a> {
    sheet: &'a Sheet,
    least: Vec<usize>,
}

impl Values<'_> {
    pub fn of(sheet: &Sheet) -> Values<'_> {
        Values { sheet, least: least_words(&sheet.types) }
    }

    /// A value of a type in at most `room` words.
    pub fn typed(&self, prng: &mut Prng, ty: TypeId, room: usize) -> Option<Value> {
        if self.least[ty] > room {
            return None;
        }
        match self.sheet.types[ty] {
            Type::Int => Some(Value::Integer(prng.integer())),
            Type::Error => Some(Value::Error(error(prng))),
            Type::Package => self.package(prng, room),
            Type::Sum(left, right) => {
                let fits = |part: TypeId| self.least[part] < room;
                if fits(left) && (prng.chance(50) || !fits(right)) {
                    Some(Value::Left(Box::new(self.typed(prng, left, room - 1)?)))
                } else {
                    Some(Value::Right(Box::new(self.typed(prng, right, room - 1)?)))
                }
            }
            Type::Pair(first, second) => self.typed_pair(prng, [first, second], room - 1),
        }
    }

    /// A pair whose parts have these types and at most `room` words together. Either part may be the
    /// one that takes its room first.
    fn typed_pair(&self, prng: &mut Prng, parts: [TypeId; 2], room: usize) -> Option<Value> {
        let [mut one, mut other] = parts;
        let swapped = prng.chance(50);
        if swapped {
            (one, other) = (other, one);
        }
        let one = self.typed(prng, one, room - self.least[other])?;
        let other = self.typed(prng, other, room - one.length())?;
        let (first, second) = if swapped { (other, one) } else { (one, other) };
        Some(Value::Pair(Box::new(first), Box::new(second)))
    }

    fn package(&self, prng: &mut Prng, room: usize) -> Option<Value> {
        if room < 4 || self.sheet.labels.is_empty() {
            return None;
        }
        let label = prng.below(self.sheet.labels.len());
        Some(Value::Package(label, Box::new(self.content(prng, room - 2))))
    }

    /// A package's content: a value of some type of the sheet, or any value at all.
    pub fn content(&self, prng: &mut Prng, room: usize) -> Value {
        let of_type = match prng.below(3) {
            0 => None,
            1 => {
                let ty = prng.pick(&[0, 2, 3, 4]);
                self.typed(prng, ty, room)
            }
            _ => {
                let ty = prng.below(self.sheet.types.len());
                self.typed(prng, ty, room)
            }
        };
        of_type.unwrap_or_else(|| self.any(prng, room))
    }

    /// Any value in at most `room` words, at least 2.
    fn any(&self, prng: &mut Prng, room: usize) -> Value {
        let forms = match room {
            2 => 2,
            3 | 4 => 6,
            _ => 8,
        };
        match prng.below(forms) {
            0 => Value::Integer(prng.integer()),
            1 => Value::Error(error(prng)),
            2 | 3 => Value::Left(Box::new(self.any(prng, room - 1))),
            4 => Value::Right(Box::new(self.any(prng, room - 1))),
            5 => self.package(prng, room).unwrap_or(Value::Integer(room as u32)),
            _ => {
                let first = self.any(prng, room - 3);
                let second = self.any(prng, room - 1 - first.length());
                Value::Pair(Box::new(first), Box::new(second))
            }
        }
    }
}

fn error(prng: &mut Prng) -> Error {
    prng.pick(&[Error::InsufficientAuth, Error::IllegalFlow, Error::TypeMismatch])
}
