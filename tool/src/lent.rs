//! The memory as the library is lent it.

use crate::files::Text;
use crate::message::{memory_fault, message, Message};
use crate::names::Names;
use crate::opening::fault_in_full;
use reference::memory_text;
use reference::sheet::Sheet;
use reference::text::Fault;
use reference::value::MOST_WORDS;
use reference::Reason;

pub struct Lent {
    pub words: Vec<u32>,
    /// Why the text isn't of its form, if it isn't.
    fault: Option<Fault>,
}

impl Lent {
    /// In the place of a text that isn't of its form stand words that no memory has, so that the
    /// library says whether something else refuses the call before.
    pub fn new(text: &Text, sheet: &Sheet) -> Lent {
        match memory_text::parse(&text.bytes, sheet.locations.len()) {
            Ok(words) => Lent { words, fault: None },
            Err(fault) => {
                let words = vec![0; MOST_WORDS * sheet.locations.len().max(1)];
                Lent { words, fault: Some(fault_in_full(fault, text)) }
            }
        }
    }

    /// The memory, if its text is of its form.
    pub fn memory(&self) -> Option<&[u32]> {
        self.fault.is_none().then_some(&self.words)
    }

    /// What is told of a refusal: for 7 and 8 it is the text's fault, if that has one.
    pub fn told(&self, reason: &Reason, sheet: &Sheet, names: &Names) -> Message {
        match (&self.fault, reason.number()) {
            (Some(fault), 7 | 8) => memory_fault(fault),
            _ => message(reason, Some(sheet), names),
        }
    }
}
