//! What the commands start with: the names and the sheet.

use crate::args::Command;
use crate::calls::Calls;
use crate::files::{self, shown, Text};
use crate::help;
use crate::message::message;
use crate::names::{BadNames, Names};
use crate::refusal::{disagreed, Refusal};
use crate::status::{Status, Stop};
use crate::streams::Streams;
use reference::sheet::Sheet;
use reference::text::{Cause, Fault};
use reference::Reason;
use std::ffi::OsStr;

/// A file and its text.
pub struct Named<'a> {
    pub name: &'a OsStr,
    pub text: Text,
}

/// Reads the names file, if one is given.
pub fn read_names<'a>(
    name: Option<&'a OsStr>,
    streams: &mut Streams,
) -> Result<Option<Named<'a>>, Stop> {
    let Some(name) = name else {
        return Ok(None);
    };
    let [text] = files::read_all([name], streams)?;
    Ok(Some(Named { name, text }))
}

/// The names that the names file gives.
pub fn names(file: Option<&Named>) -> Result<Names, Stop> {
    let Some(Named { name, text }) = file else {
        return Ok(Names::default());
    };
    if text.is_cut() {
        let what = format!("{}: a names file has less than 1 MiB", shown(name));
        return Err(Stop::new(Status::Usage, what));
    }
    Names::parse(&text.bytes).map_err(|bad| bad_names(name, &bad))
}

fn bad_names(name: &OsStr, bad: &BadNames) -> Stop {
    Stop::new(Status::Usage, format!("{}:{}: {}", shown(name), bad.line, bad.what))
}

/// The sheet, or why it is refused. The names must be for it.
pub fn sheet(
    file: &Named,
    names: &Names,
    names_file: Option<&Named>,
    calls: &Calls,
) -> Result<Result<Sheet, Refusal>, Stop> {
    let asked = format!("is the sheet {} accepted", shown(file.name));
    let judged = calls.sheet(&file.text.bytes);
    match judged.map_err(|found| disagreed(&asked, &found))? {
        Err(reason) => {
            let reason = in_full(reason, &file.text, &file.text);
            let message = message(&reason, None, names).with_rule(&reason, &file.text.bytes);
            Ok(Err(Refusal { name: files::name(file.name), message }))
        }
        Ok(sheet) => {
            let stranger = names.require_on(&sheet).err();
            match stranger.zip(names_file) {
                Some((bad, names_file)) => Err(bad_names(names_file.name, &bad)),
                None => Ok(Ok(sheet)),
            }
        }
    }
}

/// A reason that tells how long a text is, where only its start was read.
pub fn in_full(reason: Reason, sheet: &Text, script: &Text) -> Reason {
    match reason {
        Reason::Sheet(fault) => Reason::Sheet(fault_in_full(fault, sheet)),
        Reason::Script(fault) => Reason::Script(fault_in_full(fault, script)),
        other => other,
    }
}

pub fn fault_in_full(fault: Fault, text: &Text) -> Fault {
    match fault.cause {
        Cause::TextLength(_) => Cause::TextLength(text.length).at(fault.line),
        _ => fault,
    }
}

/// The set that an option's list gives.
pub fn group(
    option: &str,
    list: &str,
    names: &Names,
    command: Option<&Command>,
) -> Result<u16, Stop> {
    names.group(list).map_err(|what| misused(&format!("{option}: {what}"), command))
}

/// That the arguments aren't of their form, and what the form is.
pub fn misused(what: &str, command: Option<&Command>) -> Stop {
    let usage = help::usage(command).trim_end();
    Stop::new(Status::Usage, format!("simp: {}\n{usage}", files::printable(what)))
}
