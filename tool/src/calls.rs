//! The proved library, whose verdicts count, and the reference beside it, which says why.

mod groups;
mod round;
mod trust;

use reference::calls::read_sheet;
use reference::flow::Endorsement;
use reference::machine::Stopped;
use reference::memory_text;
use reference::round::Refused;
use reference::sheet::Sheet;
use reference::value::MOST_WORDS;
use reference::Reason;

pub use bindings::{Groups, Outcome, Round, Trust};
pub use trust::Differing;

/// The most steps of a run, or of all scripts of a round, that the reference takes too. It rebuilds
/// the command at each step: so many steps of a long script take it ten seconds, a hundred times as
/// long as the library.
pub const MOST_RETRACED: u32 = 1_000_000;

/// A script that every sheet of its form accepts.
const SKIP: &[u8] = b"s\n";

/// A sheet and a script.
type CheckCall<A> = fn(&[u8], &[u8]) -> A;
/// A sheet, a script or scripts, a memory, an authority and a budget.
type RunCall<A> = fn(&[u8], &[u8], &mut [u32], u16, u32) -> A;
/// A sheet, a memory, a group and a view.
type ViewCall<A> = fn(&[u8], &[u32], u16, &mut [u32]) -> A;
/// A sheet, a label and places for groups.
type GroupsCall<A> = fn(&[u8], u32, &mut [u16]) -> A;

/// The calls of the library.
#[derive(Clone, Copy)]
pub struct Library {
    pub check: CheckCall<u8>,
    pub run: RunCall<Outcome>,
    pub round: RunCall<Round>,
    pub view: ViewCall<u8>,
    pub groups: GroupsCall<Groups>,
    pub trust: CheckCall<Trust>,
}

/// The same calls of the reference, which give the reason of a refusal.
#[derive(Clone, Copy)]
pub struct Reference {
    pub check: CheckCall<Result<(), Reason>>,
    /// The steps of a run that is done.
    pub run: RunCall<Result<u32, Reason>>,
    /// The same of each script of a round.
    pub round: RunCall<Result<Vec<Result<u32, Stopped>>, Refused>>,
    pub view: ViewCall<Result<(), Reason>>,
    /// How many groups are listed.
    pub groups: GroupsCall<Result<u32, Reason>>,
    /// The unpacks by which an accepted script isn't trust-keeping.
    pub trust: CheckCall<Result<Vec<Endorsement>, Reason>>,
}

#[derive(Clone, Copy)]
pub struct Calls {
    pub library: Library,
    pub reference: Reference,
}

/// The calls that the tool is made of.
pub const CALLS: Calls = Calls {
    library: Library {
        check: bindings::check,
        run: bindings::run,
        round: bindings::round,
        view: bindings::view,
        groups: bindings::groups,
        trust: bindings::trust,
    },
    reference: Reference {
        check: |sheet, script| reference::try_check(sheet, script).map(|_| ()),
        run: reference::try_run,
        round: reference::try_round,
        view: reference::try_view,
        groups: reference::try_groups,
        trust: reference::try_trust,
    },
};

/// That the two disagree, and what each says.
#[derive(Clone, Debug, PartialEq, Eq)]
pub struct Disagreement {
    /// The library's answer.
    pub answer: u8,
    pub library: String,
    pub reference: String,
}

/// How a run ended, or a script of a round.
#[derive(Clone, Debug, PartialEq, Eq)]
pub enum Ran {
    Done {
        steps: u32,
    },
    Refused(Reason),
    /// Stopped by 9 or 10 after more steps than the reference retraces.
    Late(Outcome),
}

/// What a run or a round is asked for, beside its memory.
#[derive(Clone, Copy)]
pub struct Asked<'a> {
    pub sheet: &'a [u8],
    /// The script, or the scripts of a round.
    pub script: &'a [u8],
    pub authority: u16,
    pub budget: u32,
}

impl Calls {
    /// The verdict on a sheet: the check of a script that has no refusal of its own.
    pub fn sheet(&self, text: &[u8]) -> Result<Result<Sheet, Reason>, Disagreement> {
        let told = (self.reference.check)(text, SKIP);
        agreed((self.library.check)(text, SKIP), &told)?;
        if let Err(reason) = told {
            return Ok(Err(reason));
        }
        let told = read_sheet(text);
        agreed(0, &told).map(|()| told)
    }

    /// Runs a script and leaves the memory after it.
    pub fn run(&self, asked: Asked, memory: &mut [u32]) -> Result<Ran, Disagreement> {
        let Asked { sheet, script, authority, budget } = asked;
        let mut second = memory.to_vec();
        let outcome = (self.library.run)(sheet, script, memory, authority, budget);
        if outcome.steps > MOST_RETRACED {
            return self.late(asked, outcome, memory, &mut second);
        }
        // a run that stops after so many steps needs one more to meet 10
        let budget = budget.min(MOST_RETRACED + 1);
        let told = (self.reference.run)(sheet, script, &mut second, authority, budget);
        let found = match &told {
            Ok(steps) => Outcome { answer: 0, steps: *steps },
            Err(reason) => Outcome { answer: reason.number(), steps: reason.steps() },
        };
        if outcome != found {
            return Err(disagreement(outcome.answer, ended(outcome), ended(found)));
        }
        same_words(outcome.answer, memory, &second)?;
        Ok(told.map_or_else(Ran::Refused, |steps| Ran::Done { steps }))
    }

    /// A long run, of which the reference says only that nothing refuses it before its first step.
    /// Its steps must fit its answer and the budget, and one that stopped leaves the memory.
    fn late(
        &self,
        asked: Asked,
        outcome: Outcome,
        left: &[u32],
        memory: &mut [u32],
    ) -> Result<Ran, Disagreement> {
        let Asked { sheet, script, authority, budget } = asked;
        let Outcome { answer, steps } = outcome;
        let told = (self.reference.run)(sheet, script, memory, authority, 0);
        let reference = match &told {
            Ok(steps) => Some(ended(Outcome { answer: 0, steps: *steps })),
            Err(Reason::Stopped(_)) => None,
            Err(reason) => Some(ended(Outcome { answer: reason.number(), steps: 0 })),
        };
        if let Some(reference) = reference {
            return Err(disagreement(answer, ended(outcome), reference));
        }
        if !fits(outcome, budget) {
            return Err(disagreement(answer, ended(outcome), unfit(budget)));
        }
        match answer {
            0 => Ok(Ran::Done { steps }),
            _ => same_words(answer, left, memory).map(|()| Ran::Late(outcome)),
        }
    }

    /// The words that a group is shown of a memory, or why none are.
    pub fn view(
        &self,
        sheet: &[u8],
        memory: &[u32],
        group: u16,
    ) -> Result<Result<Vec<u32>, Reason>, Disagreement> {
        let (mut view, mut second) = (vec![0; memory.len()], vec![0; memory.len()]);
        let answer = (self.library.view)(sheet, memory, group, &mut view);
        let told = (self.reference.view)(sheet, memory, group, &mut second);
        agreed(answer, &told)?;
        same_words(answer, &view, &second)?;
        Ok(told.map(|()| view))
    }
}

/// That the library's answer is the number that the reference comes to.
fn agreed<T>(answer: u8, told: &Result<T, Reason>) -> Result<(), Disagreement> {
    let found = told.as_ref().err().map_or(0, Reason::number);
    if answer == found {
        Ok(())
    } else {
        Err(disagreement(answer, answered(answer), answered(found)))
    }
}

fn same_words(answer: u8, library: &[u32], reference: &[u32]) -> Result<(), Disagreement> {
    let mut pairs = library.chunks(MOST_WORDS).zip(reference.chunks(MOST_WORDS));
    let Some(location) = pairs.position(|(mine, theirs)| mine != theirs) else {
        return Ok(());
    };
    let words = |words: &[u32]| {
        let text = memory_text::print(&words[location * MOST_WORDS..][..MOST_WORDS]);
        let words = String::from_utf8_lossy(&text).trim_end().replace('\t', " ");
        format!("{}, location {location} is `{words}`", answered(answer))
    };
    Err(disagreement(answer, words(library), words(reference)))
}

/// Whether a run that starts can end so.
fn fits(outcome: Outcome, budget: u32) -> bool {
    match outcome.answer {
        0 => outcome.steps <= budget,
        9 => outcome.steps == budget,
        10 => outcome.steps < budget,
        _ => false,
    }
}

fn unfit(budget: u32) -> String {
    format!("no such answer with a budget of {budget}")
}

fn disagreement(answer: u8, library: String, reference: String) -> Disagreement {
    Disagreement { answer, library, reference }
}

fn answered(answer: u8) -> String {
    format!("answer {answer}")
}

fn ended(outcome: Outcome) -> String {
    format!("answer {}, steps {}", outcome.answer, outcome.steps)
}
