//! Memories: a value for each location.

use crate::sheet::{LocationId, Sheet};
use crate::value::{padded, BadWords, Value, MOST_WORDS};

/// The values by location.
pub type Memory = Vec<Value>;

/// The number of words of a memory or a view.
pub fn length(sheet: &Sheet) -> usize {
    sheet.locations.len() * MOST_WORDS
}

/// Why words aren't a well-formed memory: the first location at fault.
#[derive(Clone, Debug, PartialEq, Eq)]
pub struct BadMemory {
    pub location: LocationId,
    pub cause: BadValue,
}

#[derive(Clone, Debug, PartialEq, Eq)]
pub enum BadValue {
    Words(BadWords),
    /// The value hasn't the declared type.
    Type(Value),
}

/// The memory that the words hold, if each location's value has its declared type.
pub fn decode(sheet: &Sheet, words: &[u32]) -> Result<Memory, BadMemory> {
    let places = words.chunks(MOST_WORDS).enumerate();
    let values = places.map(|(location, words)| {
        let value = decode_at(sheet, location, words);
        value.map_err(|cause| BadMemory { location, cause })
    });
    values.collect()
}

fn decode_at(sheet: &Sheet, location: LocationId, words: &[u32]) -> Result<Value, BadValue> {
    let value = Value::decode(words, sheet.labels.len()).map_err(BadValue::Words)?;
    if value.has_type(sheet, sheet.locations[location].ty) {
        Ok(value)
    } else {
        Err(BadValue::Type(value))
    }
}

/// The words of a memory, 16 for each location.
pub fn encode(memory: &Memory) -> Vec<u32> {
    memory.iter().flat_map(|value| padded(value.words())).collect()
}
