//! The numbers that answer a call.

/// The answer where no number applies.
pub const DONE: u8 = 0;

/// What refuses a call, numbered as in the scope.
#[derive(Clone, Copy, Debug, PartialEq, Eq)]
pub enum Refusal {
    SheetForm = 1,
    SheetRepeats = 2,
    UnknownPrincipal = 3,
    ScriptForm = 4,
    NoShape = 5,
    NoFlow = 6,
    SliceLength = 7,
    MemoryForm = 8,
    Spent = 9,
    ValueTooLong = 10,
    TooManyScripts = 11,
    Unlisted = 12,
}

impl Refusal {
    pub fn number(self) -> u8 {
        self as u8
    }
}

/// The answer of a run and its number of steps.
#[derive(Clone, Copy, Debug, PartialEq, Eq)]
pub struct Outcome {
    pub answer: u8,
    pub steps: u32,
}

impl Outcome {
    pub fn done(steps: u32) -> Outcome {
        Outcome { answer: DONE, steps }
    }

    pub fn refused(refusal: Refusal, steps: u32) -> Outcome {
        Outcome { answer: refusal.number(), steps }
    }
}

/// The most scripts of a round.
pub const SCRIPTS: usize = 32;

/// The answer of a round, and each script's answer and number of steps in its place. Places past the
/// last script are 0, and every place of a round that is refused.
#[derive(Clone, Copy, Debug, PartialEq, Eq)]
pub struct Round {
    pub answer: u8,
    pub answers: [u8; SCRIPTS],
    pub steps: [u32; SCRIPTS],
}

impl Round {
    /// A round with zeros in every place.
    pub fn empty(answer: u8) -> Round {
        Round { answer, answers: [0; SCRIPTS], steps: [0; SCRIPTS] }
    }
}

/// The most sets of 16 principals of which none contains another: those of 8. No label has more
/// smallest groups.
pub const MOST_GROUPS: usize = 12_870;

/// The answer of a call for the smallest groups of a label, and how many were listed: 0 beside a
/// refusal.
#[derive(Clone, Copy, Debug, PartialEq, Eq)]
pub struct Groups {
    pub answer: u8,
    pub count: u32,
}

impl Groups {
    pub fn listed(count: u32) -> Groups {
        Groups { answer: DONE, count }
    }

    pub fn refused(refusal: Refusal) -> Groups {
        Groups { answer: refusal.number(), count: 0 }
    }
}

/// The answer of a call for trust, as of a check, and 1 beside `DONE` where the script is
/// trust-keeping, else 0.
#[derive(Clone, Copy, Debug, PartialEq, Eq)]
pub struct Trust {
    pub answer: u8,
    pub keeping: u8,
}

impl Trust {
    pub fn accepted(keeping: bool) -> Trust {
        Trust { answer: DONE, keeping: keeping.into() }
    }

    pub fn refused(refusal: Refusal) -> Trust {
        Trust { answer: refusal.number(), keeping: 0 }
    }
}
