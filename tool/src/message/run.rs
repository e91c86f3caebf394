//! Memories that aren't well-formed, and runs that stop.

use super::text::counted;
use super::{told, Told};
use crate::words::Words;
use reference::machine::Stopped;
use reference::memory::{BadMemory, BadValue};
use reference::value::{BadWords, MOST_WORDS};

const VALUES: &str = "a value is `1 n`, `2 e`, `3` or `4` and a value, `5 label` and a value, or \
                      `6` and two values";

pub fn memory(words: &Words, fault: &BadMemory) -> Told {
    let location = words.location(fault.location);
    match &fault.cause {
        BadValue::Words(bad) => {
            let (fact, advice) = bad_words(words, *bad);
            told(format!("{location}: {fact}"), advice, VALUES)
        }
        BadValue::Type(value) => told(
            format!(
                "{location} takes {}, but its value is {}",
                words.ty(words.sheet.locations[fault.location].ty),
                words.value(value)
            ),
            "give it a value of its type",
            "each location's value has its declared type",
        ),
    }
}

fn bad_words(words: &Words, bad: BadWords) -> (String, &'static str) {
    match bad {
        BadWords::Start(0) => {
            let fact = "a 0, or the end of the line, stands where a value should start";
            (fact.to_string(), "give the whole value, with the zeros inside it")
        }
        BadWords::Start(word) => {
            (format!("no value starts with word {word}"), "start a value with a word from 1 to 6")
        }
        BadWords::Cut => {
            (format!("its value doesn't end within {MOST_WORDS} words"), "give a value that fits")
        }
        BadWords::ErrorCode(code) => (
            format!("there is no error {code}"),
            "write 1 (insufficientAuth), 2 (illegalFlow) or 3 (typeMismatch)",
        ),
        BadWords::Label(label) => (
            format!(
                "label {label} of a package isn't on the sheet ({})",
                counted(words.sheet.labels.len(), "label")
            ),
            "take the memory that belongs to this sheet",
        ),
        BadWords::After(word) => {
            (format!("word {word} stands after its value"), "end the line after the value")
        }
    }
}

/// The line, and what is told.
pub fn stopped(stopped: &Stopped) -> (usize, Told) {
    match stopped {
        Stopped::Spent { line, steps } => {
            let mut told = spent(*steps);
            told.fact = format!("{}; the run had come to this line", told.fact);
            (*line, told)
        }
        Stopped::TooLong { at, steps } => (
            at.line,
            told(
                format!("in step {} a value takes {} words", u64::from(*steps) + 1, at.words),
                "pack, wrap and pair less: `l`, `r` and `p` add a word, `k` adds three",
                "a value has at most 16 words, and a run that meets a longer one changes nothing",
            ),
        ),
    }
}

pub fn spent(budget: u32) -> Told {
    told(
        format!(
            "the budget of {} was used up before the script ended",
            counted(budget as usize, "step")
        ),
        "give a larger budget, or see whether its loop ends",
        "a run that isn't done within its budget changes nothing",
    )
}
