//! The implementations that tests go through: the reference, the lean one, and the library where it
//! is linked.

use reference::{Groups, Outcome, Round, Trust};

pub type Check = fn(&[u8], &[u8]) -> u8;
pub type Run = fn(&[u8], &[u8], &mut [u32], u16, u32) -> Outcome;
pub type RunRound = fn(&[u8], &[u8], &mut [u32], u16, u32) -> Round;
pub type View = fn(&[u8], &[u32], u16, &mut [u32]) -> u8;
pub type ListGroups = fn(&[u8], u32, &mut [u16]) -> Groups;
pub type AskTrust = fn(&[u8], &[u8]) -> Trust;

/// The calls of one implementation.
#[derive(Clone, Copy)]
pub struct Implementation {
    pub name: &'static str,
    pub check: Check,
    pub run: Run,
    pub round: RunRound,
    pub view: View,
    pub groups: ListGroups,
    pub trust: AskTrust,
}

pub const REFERENCE: Implementation = Implementation {
    name: "reference",
    check: reference::check,
    run: reference::run,
    round: reference::round,
    view: reference::view,
    groups: reference::groups,
    trust: reference::trust,
};

pub const LEAN: Implementation = Implementation {
    name: "lean",
    check: crate::lean::check,
    run: crate::lean::run,
    round: crate::lean::round,
    view: crate::lean::view,
    groups: crate::lean::groups,
    trust: crate::lean::trust,
};

#[cfg(feature = "library")]
pub const LIBRARY: Implementation = Implementation {
    name: "library",
    check: bindings::check,
    run: |sheet, script, memory, authority, budget| {
        let outcome = bindings::run(sheet, script, memory, authority, budget);
        Outcome { answer: outcome.answer, steps: outcome.steps }
    },
    round: |sheet, scripts, memory, authority, budget| {
        let round = bindings::round(sheet, scripts, memory, authority, budget);
        Round { answer: round.answer, answers: round.answers, steps: round.steps }
    },
    view: bindings::view,
    groups: |sheet, label, groups| {
        let listed = bindings::groups(sheet, label, groups);
        Groups { answer: listed.answer, count: listed.count }
    },
    trust: |sheet, script| {
        let trust = bindings::trust(sheet, script);
        Trust { answer: trust.answer, keeping: trust.keeping }
    },
};

/// Every implementation that is there.
#[cfg(feature = "library")]
pub const ALL: &[Implementation] = &[REFERENCE, LEAN, LIBRARY];
#[cfg(not(feature = "library"))]
pub const ALL: &[Implementation] = &[REFERENCE, LEAN];

/// The implementation that property tests are about: the library where it is linked.
#[cfg(feature = "library")]
pub const TESTED: Implementation = LIBRARY;
#[cfg(not(feature = "library"))]
pub const TESTED: Implementation = REFERENCE;
