//! Memories and views: 16 words for each location.

use super::sheet::{Location, Sheet};
use super::value::{has_type, hide, Value};
use reference::answer::Refusal;

/// The words of a location.
pub const CELL: usize = 16;

/// The value that a location's words hold, if it has the declared type.
fn decode(sheet: &Sheet, location: Location, words: &[u32]) -> Option<Value> {
    let value = Value::decode(words, sheet.labels.len())?;
    has_type(words, &sheet.types, location.ty).then_some(value)
}

/// The values of a memory, into cells: 8.
pub fn load(sheet: &Sheet, memory: &[u32], cells: &mut [Value]) -> Result<(), Refusal> {
    let places = memory.chunks_exact(CELL).zip(sheet.locations.iter());
    for (cell, (words, &location)) in cells.iter_mut().zip(places) {
        *cell = decode(sheet, location, words).ok_or(Refusal::MemoryForm)?;
    }
    Ok(())
}

/// The words of cells, into a memory.
pub fn store(cells: &[Value], memory: &mut [u32]) {
    for (cell, words) in cells.iter().zip(memory.chunks_exact_mut(CELL)) {
        words.copy_from_slice(&cell.words);
    }
}

/// 8.
pub fn require_well_formed(sheet: &Sheet, memory: &[u32]) -> Result<(), Refusal> {
    let mut places = memory.chunks_exact(CELL).zip(sheet.locations.iter());
    if places.all(|(words, &location)| decode(sheet, location, words).is_some()) {
        Ok(())
    } else {
        Err(Refusal::MemoryForm)
    }
}

/// Writes what is shown of a well-formed memory to a group that reads the labels in `read`.
pub fn view(sheet: &Sheet, memory: &[u32], read: u32, view: &mut [u32]) {
    let cells = memory.chunks_exact(CELL).zip(view.chunks_exact_mut(CELL));
    for ((words, shown), location) in cells.zip(sheet.locations.iter()) {
        if read >> location.label & 1 == 1 {
            shown.copy_from_slice(words);
            hide(shown, read);
        } else {
            shown.fill(0);
        }
    }
}
