//! A round: several scripts, in order, on one memory. A script is read to be checked and again to be
//! run, so the rows of one are all that is kept.

use super::list::List;
use super::machine::Machine;
use super::script::{Row, Script};
use super::sheet::{Sheet, MOST_LOCATIONS};
use super::value::Value;
use super::{accept, memory, script_text, sheet_text};
use reference::answer::{Refusal, Round, DONE, SCRIPTS};

type Scripts<'a> = List<&'a [u8], SCRIPTS>;

/// Checks every script, then runs them in order, each from the memory that the last done one left.
/// Leaves that memory; a refusal leaves it as it was.
pub fn round(
    sheet: &[u8],
    scripts: &[u8],
    memory: &mut [u32],
    authority: u16,
    budget: u32,
) -> Round {
    try_round(sheet, scripts, memory, authority, budget)
        .unwrap_or_else(|refusal| Round::empty(refusal.number()))
}

fn try_round(
    sheet_text: &[u8],
    text: &[u8],
    memory: &mut [u32],
    authority: u16,
    budget: u32,
) -> Result<Round, Refusal> {
    let mut sheet = Sheet::empty();
    sheet_text::read(sheet_text, &mut sheet)?;
    sheet.require_known(authority)?;
    let scripts = parted(text)?;
    let mut script = Script::new(Row::Skip);
    accept_all(&sheet, &scripts, &mut script)?;
    sheet.require_length(memory)?;
    let mut cells = [Value::default(); MOST_LOCATIONS];
    memory::load(&sheet, memory, &mut cells)?;
    let rights = sheet.rights(authority);
    let mut round = Round::empty(DONE);
    // neither a script nor a memory that has passed once is refused below
    for (place, text) in scripts.iter().enumerate() {
        script.clear();
        script_text::read(&sheet, text, &mut script).ok_or(Refusal::ScriptForm)?;
        let outcome = Machine::new(&sheet, &script, &mut cells, rights, budget).run();
        if outcome.answer == DONE {
            memory::store(&cells, memory);
        } else {
            memory::load(&sheet, memory, &mut cells)?;
        }
        (round.answers[place], round.steps[place]) = (outcome.answer, outcome.steps);
    }
    Ok(round)
}

/// The scripts that empty lines part: 11.
fn parted(text: &[u8]) -> Result<Scripts<'_>, Refusal> {
    let mut scripts = Scripts::new(&[]);
    let (mut start, mut line_starts) = (0, true);
    for (at, &byte) in text.iter().enumerate() {
        let line_ends = byte == b'\n';
        if line_starts && line_ends {
            scripts.push(&text[start..at]).ok_or(Refusal::TooManyScripts)?;
            start = at + 1;
        }
        line_starts = line_ends;
    }
    scripts.push(&text[start..]).ok_or(Refusal::TooManyScripts)?;
    Ok(scripts)
}

/// The lowest number of all scripts: 4, 5 and 6.
fn accept_all(sheet: &Sheet, scripts: &Scripts, script: &mut Script) -> Result<(), Refusal> {
    let refusals = scripts.iter().filter_map(|text| {
        script.clear();
        accept(sheet, text, script).err()
    });
    match refusals.min_by_key(|refusal| refusal.number()) {
        None => Ok(()),
        Some(lowest) => Err(lowest),
    }
}
