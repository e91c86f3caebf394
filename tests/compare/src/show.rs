//! The program *show*: from its input to its output.

use super::parts::{self, parts};
use reference::answer::Refusal;
use reference::calls::{known_group, read_memory, read_sheet};
use reference::{memory_text, view};

/// The view as a memory text, or one line with the number alone.
pub fn show(input: &[u8]) -> Vec<u8> {
    match answer(input) {
        Ok(words) => memory_text::print(&words),
        Err(refusal) => format!("{}\n", refusal.number()).into_bytes(),
    }
}

/// The words of the view, or what refuses it. The printed line alone may not tell the two apart.
pub fn answer(input: &[u8]) -> Result<Vec<u32>, Refusal> {
    let [sheet, memory, group] = parts(input);
    view_words(sheet, memory, group)
}

/// The numbers in their order: 1, 2, 3 and 8.
fn view_words(sheet: &[u8], memory: &[u8], group: &[u8]) -> Result<Vec<u32>, Refusal> {
    let sheet = read_sheet(sheet).map_err(|reason| reason.refusal())?;
    let bits = parts::set(group).ok_or(Refusal::UnknownPrincipal)?;
    let group = known_group(&sheet, bits).map_err(|reason| reason.refusal())?;
    let words = memory_text::parse(memory, sheet.locations.len());
    let words = words.map_err(|_| Refusal::MemoryForm)?;
    let memory = read_memory(&sheet, &words).map_err(|reason| reason.refusal())?;
    Ok(view::words(&sheet, &memory, group))
}
