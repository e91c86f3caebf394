//! The call that runs a round: several scripts, in order, on one memory.

use crate::answer::{Round, DONE, SCRIPTS};
use crate::calls::{
    accepted_script, known_group, outcome, read_memory, read_sheet, require_length,
};
use crate::evaluate::Context;
use crate::machine::{self, Configuration, Stopped};
use crate::memory;
use crate::reason::Reason;
use crate::round_text::{parts, Part};
use crate::script::Script;
use crate::sheet::Sheet;
use std::num::NonZeroUsize;
use std::rc::Rc;

/// Why a round is refused: for 4, 5 and 6 the script at fault, else none.
#[derive(Clone, Debug, PartialEq, Eq)]
pub struct Refused {
    pub script: Option<Place>,
    /// Its lines are counted from the first line of the script.
    pub reason: Reason,
}

/// The place of a script in a round.
#[derive(Clone, Copy, Debug, PartialEq, Eq)]
pub struct Place {
    /// Counted from 0.
    pub number: usize,
    /// The line of the whole text at which the script starts, counted from 1.
    pub first_line: NonZeroUsize,
}

impl From<Reason> for Refused {
    fn from(reason: Reason) -> Refused {
        Refused { script: None, reason }
    }
}

/// Checks every script, then runs them in order, each from the memory that the last done one left.
/// Leaves that memory; a refusal leaves it as it was.
pub fn round(
    sheet: &[u8],
    scripts: &[u8],
    memory: &mut [u32],
    authority: u16,
    budget: u32,
) -> Round {
    match try_round(sheet, scripts, memory, authority, budget) {
        Ok(runs) => {
            let mut round = Round::empty(DONE);
            for (place, run) in runs.into_iter().enumerate() {
                let outcome = outcome(run.map_err(Reason::Stopped));
                (round.answers[place], round.steps[place]) = (outcome.answer, outcome.steps);
            }
            round
        }
        Err(refused) => Round::empty(refused.reason.number()),
    }
}

/// The same, with the steps of each script that is done or why it stopped, or why the round is refused.
pub fn try_round(
    sheet: &[u8],
    scripts: &[u8],
    memory: &mut [u32],
    authority: u16,
    budget: u32,
) -> Result<Vec<Result<u32, Stopped>>, Refused> {
    let sheet = read_sheet(sheet)?;
    let authority = known_group(&sheet, authority)?;
    let scripts = accepted_scripts(&sheet, scripts)?;
    require_length(&sheet, memory)?;
    let mut values = read_memory(&sheet, memory)?;
    let context = Context { sheet: &sheet, authority };
    let mut runs = Vec::new();
    for Script { command, .. } in scripts {
        let mut configuration = Configuration { memory: values.clone(), command: Rc::new(command) };
        let run = machine::run(&context, &mut configuration, budget);
        if run.is_ok() {
            values = configuration.memory;
        }
        runs.push(run);
    }
    memory.copy_from_slice(&memory::encode(&values));
    Ok(runs)
}

/// Parts, reads and checks the scripts of a round: 11, then the lowest of all their numbers.
pub fn accepted_scripts(sheet: &Sheet, text: &[u8]) -> Result<Vec<Script>, Refused> {
    let parts = parts(text);
    let found = parts.len();
    if found > SCRIPTS {
        return Err(Reason::Scripts { found, most: SCRIPTS }.into());
    }
    let (mut accepted, mut refused) = (Vec::new(), Vec::new());
    for (number, Part { first_line, text }) in parts.into_iter().enumerate() {
        let script = NonZeroUsize::new(first_line).map(|first_line| Place { number, first_line });
        match accepted_script(sheet, text) {
            Ok(script) => accepted.push(script),
            Err(reason) => refused.push(Refused { script, reason }),
        }
    }
    // of several with the lowest number, the first
    match refused.into_iter().min_by_key(|refused| refused.reason.number()) {
        None => Ok(accepted),
        Some(lowest) => Err(lowest),
    }
}

#[cfg(test)]
mod tests {
    use super::{round, try_round, Place, Refused};
    use crate::answer::{Round, SCRIPTS};
    use crate::machine::Stopped;
    use crate::reason::Reason;

    /// Location 0 is an int that everyone reads, 1 one that principal 0 alone reads, 2 a pkg+error.
    const SHEET: &[u8] = b"P\t2\nL\nL\nO\t0\t0000\t0003\nX\t0\t0\nX\t0\t1\nX\t4\t0\n";
    const UNFORMED: &str = "q\n";
    const SHAPELESS: &str = "=\t0\nx\t2\n";
    const FLOWLESS: &str = "=\t0\nx\t1\n";

    fn memory(first: u32) -> Vec<u32> {
        let mut words = vec![0; 48];
        words[..2].copy_from_slice(&[1, first]);
        words[16] = 1;
        words[32..35].copy_from_slice(&[4, 2, 1]);
        words
    }

    /// The number of a refused round, and its script and that one's first line.
    fn refused(scripts: &[&str]) -> (u8, Option<(usize, usize)>) {
        let (text, mut words) = (scripts.join("\n"), memory(5));
        let result = try_round(SHEET, text.as_bytes(), &mut words, 1, 9);
        let Refused { script, reason } = result.expect_err("a refusal");
        let answer = reason.number();
        assert_eq!(round(SHEET, text.as_bytes(), &mut words, 1, 9), Round::empty(answer));
        assert_eq!(words, memory(5));
        (answer, script.map(|Place { number, first_line }| (number, first_line.get())))
    }

    #[test]
    fn the_first_script_of_the_lowest_number_is_named() {
        assert_eq!(refused(&["s\n", FLOWLESS, FLOWLESS]), (6, Some((1, 3))));
        assert_eq!(refused(&[FLOWLESS, "s\n", SHAPELESS, SHAPELESS]), (5, Some((2, 6))));
        assert_eq!(refused(&[FLOWLESS, SHAPELESS, UNFORMED, ""]), (4, Some((2, 7))));
        assert_eq!(refused(&["s\n", "", UNFORMED]), (4, Some((1, 3))));
        assert_eq!(refused(&[""]), (4, Some((0, 1))));
    }

    #[test]
    fn scripts_are_counted_before_they_are_read() {
        assert_eq!(refused(&[UNFORMED; SCRIPTS + 1]), (11, None));
        assert_eq!(refused(&[UNFORMED; SCRIPTS]), (4, Some((0, 1))));
        let many = "\n".repeat(40);
        let refused = try_round(SHEET, many.as_bytes(), &mut [], 1, 9);
        let reason = Reason::Scripts { found: 41, most: 32 };
        assert_eq!(refused, Err(Refused { script: None, reason }));
    }

    #[test]
    fn a_round_goes_on_from_the_last_script_that_was_done() {
        let add = "=\t0\n+\nx\t0\ni\t1\n";
        let writes_and_goes_on = ";\n=\t0\ni\t70\nw\nl\t3\ni\t0\ns\n";
        let writes_and_packs = format!(";\n=\t0\ni\t80\n=\t2\n{}i\t1\n", "k\t0\n".repeat(5));
        let text = [add, writes_and_goes_on, add, &writes_and_packs, add].join("\n");
        let mut words = memory(5);
        let runs = try_round(SHEET, text.as_bytes(), &mut words, 3, 7).expect("no refusal");
        assert_eq!(words, memory(8));
        let stopped = |run: &Result<u32, Stopped>| run.is_err();
        assert_eq!(runs.iter().map(stopped).collect::<Vec<_>>(), [false, true, false, true, false]);

        let mut words = memory(5);
        let round = round(SHEET, text.as_bytes(), &mut words, 3, 7);
        assert_eq!(words, memory(8));
        let mut expected = Round::empty(0);
        expected.answers[..5].copy_from_slice(&[0, 9, 0, 10, 0]);
        expected.steps[..5].copy_from_slice(&[1, 7, 1, 2, 1]);
        assert_eq!(round, expected);
    }
}
