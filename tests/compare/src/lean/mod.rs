//! The calls as one would ship them without proofs: tables of fixed size, scripts as rows, sets
//! and least labels as masks, values of 16 words, and nothing allocated.

mod check;
mod evaluate;
mod groups;
mod label;
mod list;
mod machine;
mod memory;
mod round;
mod script;
mod script_text;
mod sheet;
mod sheet_text;
mod text;
mod value;

use machine::Machine;
use reference::answer::{Outcome, Refusal, Trust, DONE};
use script::{Row, Script};
use sheet::{Sheet, MOST_LOCATIONS};
use value::Value;

pub use groups::groups;
pub use round::round;

fn number(result: Result<(), Refusal>) -> u8 {
    result.err().map_or(DONE, Refusal::number)
}

/// Whether a script is accepted on a sheet.
pub fn check(sheet: &[u8], script: &[u8]) -> u8 {
    number(try_check(sheet, script).map(|_| ()))
}

/// Whether a script is accepted on a sheet, and then whether it is trust-keeping.
pub fn trust(sheet: &[u8], script: &[u8]) -> Trust {
    try_check(sheet, script).map_or_else(Trust::refused, Trust::accepted)
}

/// Whether the script is trust-keeping, where it is accepted.
fn try_check(sheet_text: &[u8], script_text: &[u8]) -> Result<bool, Refusal> {
    let mut sheet = Sheet::empty();
    sheet_text::read(sheet_text, &mut sheet)?;
    let mut script = Script::new(Row::Skip);
    accept(&sheet, script_text, &mut script)
}

/// Reads a script into an empty one and checks it: 4, 5 and 6, and then whether it is trust-keeping.
fn accept(sheet: &Sheet, text: &[u8], script: &mut Script) -> Result<bool, Refusal> {
    script_text::read(sheet, text, script).ok_or(Refusal::ScriptForm)?;
    check::check(sheet, script)
}

/// Checks a script, runs it and leaves the memory it ends in. A refusal leaves the memory as it was.
pub fn run(
    sheet: &[u8],
    script: &[u8],
    memory: &mut [u32],
    authority: u16,
    budget: u32,
) -> Outcome {
    try_run(sheet, script, memory, authority, budget)
        .unwrap_or_else(|refusal| Outcome::refused(refusal, 0))
}

fn try_run(
    sheet_text: &[u8],
    script_text: &[u8],
    memory: &mut [u32],
    authority: u16,
    budget: u32,
) -> Result<Outcome, Refusal> {
    let mut sheet = Sheet::empty();
    sheet_text::read(sheet_text, &mut sheet)?;
    sheet.require_known(authority)?;
    let mut script = Script::new(Row::Skip);
    accept(&sheet, script_text, &mut script)?;
    sheet.require_length(memory)?;
    let mut cells = [Value::default(); MOST_LOCATIONS];
    memory::load(&sheet, memory, &mut cells)?;
    let rights = sheet.rights(authority);
    let outcome = Machine::new(&sheet, &script, &mut cells, rights, budget).run();
    if outcome.answer == DONE {
        memory::store(&cells, memory);
    }
    Ok(outcome)
}

/// Writes a memory's view for a group. A refusal leaves the view as it was.
pub fn view(sheet: &[u8], memory: &[u32], group: u16, view: &mut [u32]) -> u8 {
    number(try_view(sheet, memory, group, view))
}

fn try_view(
    sheet_text: &[u8],
    memory: &[u32],
    group: u16,
    view: &mut [u32],
) -> Result<(), Refusal> {
    let mut sheet = Sheet::empty();
    sheet_text::read(sheet_text, &mut sheet)?;
    sheet.require_known(group)?;
    sheet.require_length(memory)?;
    sheet.require_length(view)?;
    memory::require_well_formed(&sheet, memory)?;
    memory::view(&sheet, memory, sheet.read_by(group), view);
    Ok(())
}
