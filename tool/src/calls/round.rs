//! Rounds: the library's answer to each script held against the reference's.

use super::{
    answered, disagreement, ended, fits, same_words, unfit, Asked, Calls, Disagreement, Outcome,
    Ran, Round, MOST_RETRACED,
};
use bindings::SCRIPTS;
use reference::machine::Stopped;
use reference::round::{accepted_scripts, Refused};
use reference::script::Script;
use reference::sheet::Sheet;
use reference::Reason;

/// How each script of a round ended, in order, or why the round is refused.
pub type Rounded = Result<Vec<Ran>, Refused>;

/// What the reference says of a round.
type Told = Result<Vec<Result<u32, Stopped>>, Refused>;

impl Calls {
    /// Runs a round and leaves the memory after it. The reference takes all of it or nothing, since
    /// the library hands back no memory between two scripts.
    pub fn round(&self, asked: Asked, memory: &mut [u32]) -> Result<Rounded, Disagreement> {
        let Asked { sheet, script, authority, budget } = asked;
        let mut second = memory.to_vec();
        let round = (self.library.round)(sheet, script, memory, authority, budget);
        let steps: u64 = round.steps.iter().map(|&steps| u64::from(steps)).sum();
        if steps > MOST_RETRACED.into() {
            return self.late_round(asked, &round, memory, &mut second).map(Ok);
        }
        // a script that stops after so many steps needs one more to meet 10
        let budget = budget.min(MOST_RETRACED + 1);
        let told = (self.reference.round)(sheet, script, &mut second, authority, budget);
        same_answers(&round, &found(&told))?;
        same_words(round.answer, memory, &second)?;
        let ran = |run: Result<u32, Stopped>| match run {
            Ok(steps) => Ran::Done { steps },
            Err(stopped) => Ran::Refused(Reason::Stopped(stopped)),
        };
        Ok(told.map(|runs| runs.into_iter().map(ran).collect()))
    }

    /// The scripts of a round, or why they are refused: the round of them without a memory, which
    /// is refused by its size only after all of them are accepted.
    pub fn scripts(
        &self,
        sheet: (&[u8], &Sheet),
        script: &[u8],
    ) -> Result<Result<Vec<Script>, Refused>, Disagreement> {
        let (text, sheet) = sheet;
        let asked = Asked { sheet: text, script, authority: 0, budget: 0 };
        match self.round(asked, &mut [])? {
            Ok(_) | Err(Refused { reason: Reason::SliceLength { .. }, .. }) => {
                let differs = |refused: Refused| {
                    disagreement(0, answered(0), answered(refused.reason.number()))
                };
                accepted_scripts(sheet, script).map(Ok).map_err(differs)
            }
            Err(refused) => Ok(Err(refused)),
        }
    }

    /// A long round, of which the reference says only that nothing refuses it and how many scripts
    /// it has. Each answer must fit the budget, and where no script is done the memory is left.
    fn late_round(
        &self,
        asked: Asked,
        round: &Round,
        left: &[u32],
        memory: &mut [u32],
    ) -> Result<Vec<Ran>, Disagreement> {
        let Asked { sheet, script, authority, budget } = asked;
        let before = memory.to_vec();
        let told = (self.reference.round)(sheet, script, memory, authority, 0);
        let answer = found(&told).answer;
        if round.answer != answer {
            return Err(disagreement(round.answer, answered(round.answer), answered(answer)));
        }
        let scripts = told.map_or(0, |runs| runs.len());
        let nothing = Outcome { answer: 0, steps: 0 };
        let may_end = |(place, outcome): &(usize, Outcome)| match *place < scripts {
            true => fits(*outcome, budget),
            false => *outcome == nothing,
        };
        if let Some((place, _)) = outcomes(round).enumerate().find(|end| !may_end(end)) {
            return Err(disagreement(answer, at(round, place), unfit(budget)));
        }
        let ends: Vec<Outcome> = outcomes(round).take(scripts).collect();
        if ends.iter().all(|outcome| outcome.answer != 0) {
            same_words(answer, left, &before)?;
        }
        Ok(ends.into_iter().map(late).collect())
    }
}

fn late(outcome: Outcome) -> Ran {
    match outcome.answer {
        0 => Ran::Done { steps: outcome.steps },
        _ => Ran::Late(outcome),
    }
}

/// The answer that the reference comes to.
fn found(told: &Told) -> Round {
    let mut round = Round { answer: 0, answers: [0; SCRIPTS], steps: [0; SCRIPTS] };
    match told {
        Err(refused) => round.answer = refused.reason.number(),
        Ok(runs) => {
            let places = round.answers.iter_mut().zip(&mut round.steps);
            for ((answer, steps), run) in places.zip(runs) {
                let outcome = reference::calls::outcome(run.map_err(Reason::Stopped));
                (*answer, *steps) = (outcome.answer, outcome.steps);
            }
        }
    }
    round
}

/// That both answer the same, in every place.
fn same_answers(library: &Round, reference: &Round) -> Result<(), Disagreement> {
    let answer = library.answer;
    if answer != reference.answer {
        return Err(disagreement(answer, answered(answer), answered(reference.answer)));
    }
    let mut pairs = outcomes(library).zip(outcomes(reference));
    match pairs.position(|(mine, theirs)| mine != theirs) {
        None => Ok(()),
        Some(place) => Err(disagreement(answer, at(library, place), at(reference, place))),
    }
}

fn outcomes(round: &Round) -> impl Iterator<Item = Outcome> + '_ {
    let places = round.answers.iter().zip(&round.steps);
    places.map(|(&answer, &steps)| Outcome { answer, steps })
}

/// The answer to the script in a place, which people count from 1.
fn at(round: &Round, place: usize) -> String {
    let outcome = Outcome { answer: round.answers[place], steps: round.steps[place] };
    format!("{}, script {}: {}", answered(round.answer), place + 1, ended(outcome))
}
