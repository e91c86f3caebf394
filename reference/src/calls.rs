//! The calls on one script or on none, each with its refusals in their order.

use crate::answer::{Outcome, DONE};
use crate::evaluate::Context;
use crate::machine::{self, Configuration};
use crate::memory::{self, Memory};
use crate::principals::Principals;
use crate::reason::Reason;
use crate::script::Script;
use crate::sheet::{LabelId, Repeat, Sheet};
use crate::{flow, script_text, shape, sheet_text, view as views};
use std::rc::Rc;

/// Reads a sheet: 1 and 2.
pub fn read_sheet(text: &[u8]) -> Result<Sheet, Reason> {
    let sheet = sheet_text::parse(text).map_err(Reason::Sheet)?;
    let Some(repeat) = sheet.repeat() else {
        return Ok(sheet);
    };
    let line = match repeat {
        Repeat::Type { again, .. } => sheet_text::line_of_type(&sheet, again),
        Repeat::Label { again, .. } => sheet_text::line_of_label(text, again),
    };
    Err(Reason::Repeats { line, repeat })
}

/// The group of an authority or a group's bits: 3.
pub fn known_group(sheet: &Sheet, bits: u16) -> Result<Principals, Reason> {
    let group = Principals::from_bits(bits);
    let count = sheet.principals;
    match group.members().find(|&principal| principal >= count) {
        None => Ok(group),
        Some(principal) => Err(Reason::Principal { principal, count }),
    }
}

/// The label of a number: 12.
pub fn known_label(sheet: &Sheet, label: u32) -> Result<LabelId, Reason> {
    let count = sheet.labels.len();
    let named = usize::try_from(label).ok().filter(|&named| named < count);
    named.ok_or(Reason::UnknownLabel { label, count })
}

/// Reads and checks a script: 4, 5 and 6.
pub fn accepted_script(sheet: &Sheet, text: &[u8]) -> Result<Script, Reason> {
    let script = script_text::parse(sheet, text).map_err(Reason::Script)?;
    shape::check(sheet, &script.command).map_err(Reason::Types)?;
    flow::check(sheet, &script).map_err(Reason::Labels)?;
    Ok(script)
}

/// 7.
pub fn require_length(sheet: &Sheet, words: &[u32]) -> Result<(), Reason> {
    let (found, wanted) = (words.len(), memory::length(sheet));
    if found == wanted {
        Ok(())
    } else {
        Err(Reason::SliceLength { found, wanted })
    }
}

/// Reads a memory: 8.
pub fn read_memory(sheet: &Sheet, words: &[u32]) -> Result<Memory, Reason> {
    memory::decode(sheet, words).map_err(Reason::Memory)
}

fn number<T>(result: Result<T, Reason>) -> u8 {
    result.err().map_or(DONE, |reason| reason.number())
}

/// Whether a script is accepted on a sheet.
pub fn check(sheet: &[u8], script: &[u8]) -> u8 {
    number(try_check(sheet, script))
}

pub fn try_check(sheet: &[u8], script: &[u8]) -> Result<Script, Reason> {
    accepted_script(&read_sheet(sheet)?, script)
}

/// Checks a script, runs it and leaves the memory it ends in. A refusal leaves the memory as it was.
pub fn run(
    sheet: &[u8],
    script: &[u8],
    memory: &mut [u32],
    authority: u16,
    budget: u32,
) -> Outcome {
    outcome(try_run(sheet, script, memory, authority, budget))
}

/// The outcome of a run: its steps, or why it isn't done.
pub fn outcome(run: Result<u32, Reason>) -> Outcome {
    match run {
        Ok(steps) => Outcome::done(steps),
        Err(reason) => Outcome::refused(reason.refusal(), reason.steps()),
    }
}

/// The same, with the steps of a run that is done, or why it isn't.
pub fn try_run(
    sheet: &[u8],
    script: &[u8],
    memory: &mut [u32],
    authority: u16,
    budget: u32,
) -> Result<u32, Reason> {
    let sheet = read_sheet(sheet)?;
    let authority = known_group(&sheet, authority)?;
    let command = Rc::new(accepted_script(&sheet, script)?.command);
    require_length(&sheet, memory)?;
    let mut configuration = Configuration { memory: read_memory(&sheet, memory)?, command };
    let context = Context { sheet: &sheet, authority };
    let steps = machine::run(&context, &mut configuration, budget).map_err(Reason::Stopped)?;
    memory.copy_from_slice(&memory::encode(&configuration.memory));
    Ok(steps)
}

/// Writes a memory's view for a group. A refusal leaves the view as it was.
pub fn view(sheet: &[u8], memory: &[u32], group: u16, view: &mut [u32]) -> u8 {
    number(try_view(sheet, memory, group, view))
}

pub fn try_view(sheet: &[u8], memory: &[u32], group: u16, view: &mut [u32]) -> Result<(), Reason> {
    let sheet = read_sheet(sheet)?;
    let group = known_group(&sheet, group)?;
    require_length(&sheet, memory)?;
    require_length(&sheet, view)?;
    let memory = read_memory(&sheet, memory)?;
    view.copy_from_slice(&views::words(&sheet, &memory, group));
    Ok(())
}
