//! Running a script: figure 3 as recursion over the rows.

use super::script::{opening, Row, Script, MOST_CASES};
use super::sheet::{Rights, Sheet};
use super::value::{Value, LEFT};
use reference::answer::{Outcome, Refusal};

/// An accepted script, and what it works on.
pub struct Machine<'a> {
    pub sheet: &'a Sheet,
    pub rows: &'a [Row],
    pub rights: Rights,
    /// The values of the locations.
    pub cells: &'a mut [Value],
    /// By depth: what the cases around a row have bound.
    pub bound: [Value; MOST_CASES],
    budget: u32,
    steps_left: u32,
}

impl<'a> Machine<'a> {
    pub fn new(
        sheet: &'a Sheet,
        script: &'a Script,
        cells: &'a mut [Value],
        rights: Rights,
        budget: u32,
    ) -> Machine<'a> {
        Machine {
            sheet,
            rows: script,
            rights,
            cells,
            bound: [Value::default(); MOST_CASES],
            budget,
            steps_left: budget,
        }
    }

    pub fn run(&mut self) -> Outcome {
        let (_, at) = opening(self.rows);
        let result = self.command(at);
        let steps = self.budget - self.steps_left;
        match result {
            Ok(()) => Outcome::done(steps),
            Err(refusal) => Outcome::refused(refusal, steps),
        }
    }

    fn step(&mut self) -> Result<(), Refusal> {
        self.steps_left = self.steps_left.checked_sub(1).ok_or(Refusal::Spent)?;
        Ok(())
    }

    /// The transition of a command that starts with an expression, whose value is given in `value`.
    fn step_with(&mut self, at: usize, value: &mut Value) -> Result<(), Refusal> {
        if self.steps_left == 0 {
            return Err(Refusal::Spent);
        }
        self.evaluate(at, value)?;
        self.steps_left -= 1;
        Ok(())
    }

    /// Carries out the command at a row.
    fn command(&mut self, mut at: usize) -> Result<(), Refusal> {
        let value = &mut Value::default();
        loop {
            match self.rows[at] {
                Row::Skip => return Ok(()),
                Row::Seq { second } => {
                    self.command(at + 1)?;
                    self.step()?;
                    at = second.into();
                }
                Row::Assign { location } => {
                    self.step_with(at + 1, value)?;
                    self.cells[usize::from(location)] = *value;
                    return Ok(());
                }
                Row::While { body } => {
                    self.step_with(at + 1, value)?;
                    if value.words[0] != LEFT {
                        return Ok(());
                    }
                    self.command(body.into())?;
                    self.step()?;
                }
                Row::Case { depth, left, right } => {
                    self.step_with(at + 1, value)?;
                    at = if value.words[0] == LEFT { left } else { right }.into();
                    value.strip::<1>();
                    self.bound[usize::from(depth)] = *value;
                }
                _ => unreachable!("an expression stands in no command's place"),
            }
        }
    }
}
