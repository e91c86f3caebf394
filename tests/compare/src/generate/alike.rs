//! Pairs of memories that are alike in what is seen of them.

use super::memory::Values;
use super::prng::Prng;
use reference::memory::Memory;
use reference::principals::Principals;
use reference::sheet::{LabelId, Sheet};
use reference::value::{Value, MOST_WORDS};

/// A memory that gives a group the same view, and is random elsewhere.
pub fn same_view(prng: &mut Prng, sheet: &Sheet, memory: &Memory, group: Principals) -> Memory {
    alike(prng, sheet, memory, |label| sheet.reads(group, label))
}

/// A memory in which a distrusted group may have changed all that it writes, and nothing else.
pub fn tampered(prng: &mut Prng, sheet: &Sheet, memory: &Memory, group: Principals) -> Memory {
    alike(prng, sheet, memory, |label| !sheet.labels[label].written_by(group))
}

/// A memory that is equal in what is seen by the labels that are seen, and random elsewhere.
fn alike(
    prng: &mut Prng,
    sheet: &Sheet,
    memory: &Memory,
    sees: impl Fn(LabelId) -> bool,
) -> Memory {
    let values = Values::of(sheet);
    let mut other = Vec::new();
    for (location, value) in sheet.locations.iter().zip(memory) {
        let new = if sees(location.label) {
            Some(rehidden(prng, &values, value, &sees, MOST_WORDS))
        } else {
            values.typed(prng, location.ty, MOST_WORDS)
        };
        other.push(new.expect("a type with a value has a value"));
    }
    other
}

/// The same value, in at most `room` words, with other contents in the packages whose labels aren't
/// seen.
fn rehidden(
    prng: &mut Prng,
    values: &Values,
    value: &Value,
    sees: &dyn Fn(LabelId) -> bool,
    room: usize,
) -> Value {
    let mut inner =
        |value: &Value, room: usize| Box::new(rehidden(prng, values, value, sees, room));
    match value {
        Value::Integer(_) | Value::Error(_) => value.clone(),
        Value::Left(value) => Value::Left(inner(value, room - 1)),
        Value::Right(value) => Value::Right(inner(value, room - 1)),
        Value::Package(label, content) if sees(*label) => {
            Value::Package(*label, inner(content, room - 2))
        }
        Value::Package(label, _) => {
            Value::Package(*label, Box::new(values.content(prng, room - 2)))
        }
        Value::Pair(first, second) => {
            let first = inner(first, room - 1 - second.length());
            let second = inner(second, room - 1 - first.length());
            Value::Pair(first, second)
        }
    }
}
