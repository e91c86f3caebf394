//! What is told of a refusal, and of an unpack by which an accepted script isn't trust-keeping: what
//! is wrong, by which rule, and what to do.

mod flow;
mod lines;
mod number;
mod pairs;
mod run;
mod scripts;
mod shift;
mod text;
mod types;
mod unpack;

pub use scripts::{Scripts, Which};
pub use text::{counted, groups_read};
pub use unpack::Unpack;

use crate::names::Names;
use crate::words::{named, Words};
use pairs::Paired;
use reference::sheet::{Repeat, Sheet};
use reference::text::{Cause, Fault, Thing};
use reference::Reason;
use std::fmt;

/// The text that a message blames.
#[derive(Clone, Copy, Debug, PartialEq, Eq)]
pub enum Blamed {
    Sheet,
    Script,
    Memory,
    /// The authority, the group or the label.
    Argument,
}

/// What is told of a refusal.
#[derive(Clone, Debug, PartialEq, Eq)]
pub struct Message {
    pub number: u8,
    pub blamed: Blamed,
    /// The script of a round that it is about.
    pub script: Option<Which>,
    pub line: Option<usize>,
    pub fact: String,
    pub advice: String,
    pub rule: String,
}

/// On one line.
impl fmt::Display for Message {
    fn fmt(&self, f: &mut fmt::Formatter) -> fmt::Result {
        let Message { script, fact, advice, rule, number, .. } = self;
        if let Some(script) = script {
            write!(f, "{script}: ")?;
        }
        write!(f, "{fact}: {advice} [{number}: {rule}]")
    }
}

/// What is wrong, what to do, and the rule.
struct Told {
    fact: String,
    advice: String,
    rule: String,
}

fn told(
    fact: impl std::convert::Into<String>,
    advice: impl std::convert::Into<String>,
    rule: impl std::convert::Into<String>,
) -> Told {
    Told { fact: fact.into(), advice: advice.into(), rule: rule.into() }
}

impl Message {
    /// Tells too how what flows goes through a pair, by the script.
    pub fn with_pair(self, reason: &Reason, script: &[u8], sheet: &Sheet) -> Message {
        self.paired(Paired::of_refusal(reason, script, sheet))
    }

    /// Tells too, by the sheet's text, whether an `R` line that can't stand there is a second one.
    pub fn with_rule(mut self, reason: &Reason, sheet: &[u8]) -> Message {
        if let Reason::Sheet(Fault { cause: Cause::LineKind { found, .. }, .. }) = reason {
            if found == b"R" {
                self.advice = lines::repeated_rule(sheet).unwrap_or(self.advice);
            }
        }
        self
    }

    fn paired(mut self, paired: Option<Paired>) -> Message {
        if let Some(paired) = paired {
            paired.add(&mut self.fact, &mut self.advice);
        }
        self
    }

    /// Tells too that the value which is too long is a pair, by the words of its parts.
    pub fn with_parts(mut self, parts: Option<[usize; 2]>) -> Message {
        if let Some([first, second]) = parts {
            self.fact += &format!(
                "; it is a pair, with {first} of them in its first part, {second} in its second \
                 and 1 of its own"
            );
        }
        self
    }
}

/// What is told of why a call is refused. `sheet` is there where it isn't the sheet that is refused.
pub fn message(reason: &Reason, sheet: Option<&Sheet>, names: &Names) -> Message {
    message_from(1, reason, sheet, names)
}

/// The same of a script whose first line is the line `first` of its file.
fn message_from(first: usize, reason: &Reason, sheet: Option<&Sheet>, names: &Names) -> Message {
    let words = || Words { sheet: sheet.expect("the sheet isn't what is refused"), names };
    let (blamed, line, told) = match reason {
        Reason::Sheet(fault) => {
            (Blamed::Sheet, fault.line, text::form(text::Text::Sheet, fault, first))
        }
        Reason::Repeats { line, repeat } => (Blamed::Sheet, *line, repeats(*repeat, names)),
        Reason::Principal { principal, count } => {
            (Blamed::Argument, 0, stranger(*principal, *count))
        }
        Reason::Script(fault) => {
            (Blamed::Script, fault.line, text::form(text::Text::Script, fault, first))
        }
        Reason::Types(fault) => (Blamed::Script, fault.line, types::told_of(&words(), fault)),
        Reason::Labels(fault) => (Blamed::Script, fault.line, flow::told_of(&words(), fault)),
        Reason::SliceLength { found, wanted } => (Blamed::Memory, 0, length(*found, *wanted)),
        Reason::Memory(fault) => (Blamed::Memory, fault.location + 1, run::memory(&words(), fault)),
        Reason::Stopped(stopped) => {
            let (line, told) = run::stopped(stopped);
            (Blamed::Script, line, told)
        }
        Reason::Scripts { found, most } => (Blamed::Script, 0, scripts::too_many(*found, *most)),
        Reason::UnknownLabel { label, count } => {
            // where the sheet has no labels, no argument would do
            let blamed = if *count == 0 { Blamed::Sheet } else { Blamed::Argument };
            (blamed, 0, text::missing(Thing::Label, *label as usize, *count))
        }
        Reason::Places { found, wanted } => (Blamed::Argument, 0, places(*found, *wanted)),
    };
    finished(reason.number(), blamed, line, told)
}

/// What is told of a memory text that isn't of its form.
pub fn memory_fault(fault: &Fault) -> Message {
    finished(8, Blamed::Memory, fault.line, text::form(text::Text::Memory, fault, 1))
}

/// What is told of a run whose budget was used up, where no line is known.
pub fn spent(budget: u32) -> Message {
    finished(9, Blamed::Script, 0, run::spent(budget))
}

/// Lines count from 1, so 0 is none.
fn finished(number: u8, blamed: Blamed, line: usize, told: Told) -> Message {
    let line = (line > 0).then_some(line);
    let Told { fact, advice, rule } = told;
    Message { number, blamed, script: None, line, fact, advice, rule }
}

fn repeats(repeat: Repeat, names: &Names) -> Told {
    let label = |label: usize| named("label", label, names.label(label));
    match repeat {
        Repeat::Type { first, again } => told(
            format!("type {again} has the kind and the parts of type {first}"),
            format!(
                "take this line out, use type {first}, and lower the number of each later type"
            ),
            "a sheet has each sum (`T`) and each pair (`Q`) once, and types 3 and 4 are the sums \
             int+int and pkg+error",
        ),
        Repeat::Label { first, again } => told(
            format!("{} lets the same principals read and write as {}", label(again), label(first)),
            format!(
                "take this label out, use {}, and lower the number of each later label",
                label(first)
            ),
            "a sheet has each label once, and an owner always reads and writes",
        ),
    }
}

fn stranger(principal: usize, count: usize) -> Told {
    told(
        format!("principal {principal} isn't on the sheet ({})", counted(count, "principal")),
        "name only principals of the sheet",
        format!("principals are 0 to {}", count - 1),
    )
}

fn places(found: usize, wanted: usize) -> Told {
    told(
        format!("the slice has {}, and {} the label", counted(found, "place"), groups_read(wanted)),
        format!("lend at least {wanted}"),
        "the groups are listed all or not at all, each in a place of its own",
    )
}

fn length(found: usize, wanted: usize) -> Told {
    told(
        format!("the memory has {found} words, and the sheet's locations take {wanted}"),
        "take the memory that belongs to this sheet",
        "a memory has 16 words for each location",
    )
}
