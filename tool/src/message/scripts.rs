//! What is told of a script among others in a file: which it is, by the file's lines.

use super::lines::{added, moved_start, starts_expression};
use super::pairs::Paired;
use super::shift::{shifted, shifted_unpack};
use super::{message, message_from, told, Message, Told, Unpack};
use crate::names::Names;
use crate::words::Words;
use reference::flow::Endorsement;
use reference::round_text::{parts, Part};
use reference::sheet::Sheet;
use reference::text::{Cause, Fault};
use reference::{Reason, SCRIPTS};
use std::fmt;

const PARTED: &str = "every empty line parts two scripts, and none of them is empty";
const PARTING: &str = "put an empty line before it if another script starts there";

/// Which script of how many, counted from 1.
#[derive(Clone, Copy, Debug, PartialEq, Eq)]
pub struct Which {
    pub script: usize,
    pub of: usize,
}

impl fmt::Display for Which {
    fn fmt(&self, f: &mut fmt::Formatter) -> fmt::Result {
        write!(f, "script {} of {}", self.script, self.of)
    }
}

/// The scripts of a file.
pub struct Scripts<'a> {
    text: &'a [u8],
    parts: Vec<Part<'a>>,
}

impl<'a> Scripts<'a> {
    pub fn new(text: &'a [u8]) -> Scripts<'a> {
        Scripts { text, parts: parts(text) }
    }

    /// By its place, counted from 0.
    pub fn which(&self, place: usize) -> Which {
        Which { script: place + 1, of: self.parts.len() }
    }

    pub fn first_line(&self, place: usize) -> usize {
        self.parts[place].first_line
    }

    pub fn text(&self, place: usize) -> &'a [u8] {
        self.parts[place].text
    }

    /// What is told of the script in a place. The reason's lines are counted from its first.
    pub fn message(&self, place: usize, reason: Reason, sheet: &Sheet, names: &Names) -> Message {
        let first = self.first_line(place);
        let paired = Paired::of_refusal(&reason, self.text(place), sheet);
        let reason = shifted(reason, first - 1);
        let mut message = message_from(first, &reason, Some(sheet), names)
            .paired(paired.map(|paired| paired.shifted(first - 1)));
        message.script = Some(self.which(place));
        if let Reason::Script(fault) = &reason {
            self.amend(&mut message, place, fault);
        }
        message
    }

    /// What is told of an unpack by which the script in a place isn't trust-keeping. Its lines are
    /// counted from the script's first.
    pub fn unpack(&self, place: usize, unpack: Endorsement, words: &Words) -> Unpack {
        let before = self.first_line(place) - 1;
        let paired = Paired::of_unpack(&unpack, self.text(place), words.sheet);
        let unpack = shifted_unpack(unpack, before);
        let paired = paired.map(|paired| paired.shifted(before));
        Unpack { script: Some(self.which(place)), ..Unpack::through(&unpack, paired, words) }
    }

    /// Tells what of a fault comes from the script's place among others.
    fn amend(&self, message: &mut Message, place: usize, fault: &Fault) {
        match fault.cause {
            Cause::NoLines if self.parts.len() > 1 => {
                let Empty { line, why, advice, .. } = self.empty(place);
                message.line = Some(line);
                message.fact = format!("the script is empty, since {why}");
                message.advice = advice.to_string();
                message.rule = PARTED.to_string();
            }
            Cause::ByteOrderMark if place > 0 => {
                message.fact = "the script starts with a byte order mark".to_string();
                message.advice = "save each script without a mark before you join them".to_string();
            }
            Cause::Blank | Cause::LooseTab if self.looks_empty(fault.line) => {
                message.fact =
                    "the line has only blanks or tabs, so it isn't empty and parts nothing".into();
                message.advice =
                    "take the line out, or only its blanks and tabs if it is to part two scripts"
                        .into();
                message.rule = PARTED.to_string();
            }
            Cause::LeftOver if !starts_expression(self.line(fault.line)) => {
                message.advice = format!("{PARTING}; or {}", message.advice);
            }
            Cause::LateStart { again, ended: true } => {
                let moved = moved_start(fault.line, self.first_line(place), again);
                message.advice = format!("{PARTING}; or {moved}");
            }
            Cause::Ends(operand) if place + 1 < self.parts.len() => {
                let last = self.first_line(place + 1) - 2;
                let advice = added(&format!("after line {last}"), operand);
                message.advice = self.or_joined(place, advice);
            }
            Cause::NoCommand if place + 1 < self.parts.len() => {
                message.advice = self.or_joined(place, message.advice.clone());
            }
            _ => {}
        }
    }

    /// What to do where a script ends too early and another follows, which may be the rest of it.
    fn or_joined(&self, place: usize, advice: String) -> String {
        let next = self.parts[place + 1];
        if next.text.is_empty() {
            return advice;
        }
        let parting = next.first_line - 1;
        format!(
            "{advice}; or take out line {parting}, which is empty, if the script goes on after it"
        )
    }

    /// A line of the file without its end.
    fn line(&self, number: usize) -> &[u8] {
        self.text.split(|&byte| byte == b'\n').nth(number - 1).unwrap_or_default()
    }

    fn looks_empty(&self, line: usize) -> bool {
        self.line(line).iter().all(|byte| b" \t".contains(byte))
    }

    /// Why the script in a place is empty. None before it is, and it has others beside it.
    fn empty(&self, place: usize) -> Empty {
        let is_empty = |part: &&Part| part.text.is_empty();
        let count = self.parts[place..].iter().take_while(is_empty).count();
        let at_end = place + count == self.parts.len();
        let first = self.first_line(place);
        let (line, why, advice) = match (place, at_end) {
            (0, true) => (
                1,
                "the file has only empty lines".to_string(),
                "write scripts, with an empty line between two",
            ),
            (0, false) => (1, format!("the file starts with {}", lines(count)), these(count)),
            (_, true) => (first - 1, format!("the file ends in {}", lines(count)), these(count)),
            (_, false) if count == 1 => {
                let why = format!("lines {} and {first} are both empty", first - 1);
                (first, why, "take one of them out")
            }
            (_, false) => {
                let why = format!("lines {} to {} are empty", first - 1, first - 1 + count);
                (first, why, "take all of them but one out")
            }
        };
        Empty { count, line, why, advice }
    }

    /// What is told of more scripts than a round has: the first that is too many, or the first
    /// empty one where the others are few enough.
    pub fn too_many(&self, reason: &Reason) -> Message {
        let mut message = message(reason, None, &Names::default());
        let is_empty = |part: &Part| part.text.is_empty();
        let count = self.parts.iter().filter(|part| is_empty(part)).count();
        if count > 0 {
            message.fact += &format!(", {count} of them empty");
        }
        let first = self.parts.iter().position(is_empty);
        match first.filter(|_| self.parts.len() - count <= SCRIPTS) {
            None => {
                message.line = self.parts.get(SCRIPTS).map(|part| part.first_line);
                message.fact += &format!(", and script {} starts in this line", SCRIPTS + 1);
            }
            Some(first) => {
                let empty = self.empty(first);
                let (the_first, others) = match empty.count == count {
                    true => ("", ""),
                    false => (" the first", ", and do likewise with the others"),
                };
                message.line = Some(empty.line);
                message.fact += &format!(",{the_first} since {}", empty.why);
                message.advice = format!("{}{others}", empty.advice);
            }
        }
        message
    }
}

/// Why a script is empty.
struct Empty {
    /// How many are, one after the other.
    count: usize,
    /// The empty line that is too many, or the first of several.
    line: usize,
    why: String,
    advice: &'static str,
}

/// What is told of more scripts than a round has, where only their number is known.
pub fn too_many(found: usize, most: usize) -> Told {
    told(
        format!("the file has {found} scripts"),
        format!("make several files of it, each of at most {most}"),
        format!("a round has at most {most} scripts, and every empty line parts two"),
    )
}

fn lines(empty: usize) -> String {
    match empty {
        1 => "an empty line".to_string(),
        _ => format!("{empty} empty lines"),
    }
}

fn these(empty: usize) -> &'static str {
    match empty {
        1 => "take that line out",
        _ => "take these lines out",
    }
}
