//! Running: the transitions of figure 3.

use crate::evaluate::{evaluate, Context, ValueTooLong};
use crate::memory::Memory;
use crate::script::{Command, Phrase};
use crate::value::Value;
use std::rc::Rc;

/// A memory and the command that is left to do in it.
#[derive(Clone, Debug, PartialEq, Eq)]
pub struct Configuration {
    pub memory: Memory,
    pub command: Rc<Command>,
}

impl Configuration {
    pub fn is_done(&self) -> bool {
        self.command.is_skip()
    }

    /// The line whose transition comes next.
    pub fn line(&self) -> usize {
        next_line(&self.command)
    }

    /// Makes one transition. A configuration that is done has none.
    pub fn step(&mut self, context: &Context) -> Result<(), ValueTooLong> {
        self.command = step(context, &mut self.memory, &self.command)?;
        Ok(())
    }
}

fn next_line(command: &Command) -> usize {
    match &command.phrase {
        Phrase::Seq(first, _) if !first.is_skip() => next_line(first),
        _ => command.line,
    }
}

/// The command after one transition, which may write the memory.
fn step(
    context: &Context,
    memory: &mut Memory,
    command: &Rc<Command>,
) -> Result<Rc<Command>, ValueTooLong> {
    let after = |phrase| Ok(Rc::new(Command { line: command.line, phrase }));
    match &command.phrase {
        Phrase::Skip => unreachable!("skip has no transition"),
        // EC-SEQ-SKIP and EC-SEQ-STRUCT
        Phrase::Seq(first, second) if first.is_skip() => Ok(second.clone()),
        Phrase::Seq(first, second) => {
            let first = step(context, memory, first)?;
            after(Phrase::Seq(first, second.clone()))
        }
        // EC-ASSIGN
        Phrase::Assign(location, e) => {
            memory[*location] = evaluate(context, memory, e)?;
            after(Phrase::Skip)
        }
        // EC-WHILE-TRUE and EC-WHILE-FALSE
        Phrase::While(guard, body) => match evaluate(context, memory, guard)? {
            Value::Left(_) => after(Phrase::Seq(body.clone(), command.clone())),
            Value::Right(_) => after(Phrase::Skip),
            _ => unreachable!("a guard is a sum"),
        },
        // EC-CASEL and EC-CASER
        Phrase::Case(e, on_left, on_right) => match evaluate(context, memory, e)? {
            Value::Left(value) => Ok(Rc::new(on_left.substitute(0, &value))),
            Value::Right(value) => Ok(Rc::new(on_right.substitute(0, &value))),
            _ => unreachable!("a case's expression is a sum"),
        },
    }
}

/// Why a run stopped, and after how many steps.
#[derive(Clone, Copy, Debug, PartialEq, Eq)]
pub enum Stopped {
    /// The line whose transition would have come next.
    Spent {
        line: usize,
        steps: u32,
    },
    TooLong {
        at: ValueTooLong,
        steps: u32,
    },
}

/// Makes transitions until skip is reached, the budget is spent or a value is too long; the steps.
pub fn run(
    context: &Context,
    configuration: &mut Configuration,
    budget: u32,
) -> Result<u32, Stopped> {
    for steps in 0..budget {
        if configuration.is_done() {
            return Ok(steps);
        }
        configuration.step(context).map_err(|at| Stopped::TooLong { at, steps })?;
    }
    if configuration.is_done() {
        Ok(budget)
    } else {
        Err(Stopped::Spent { line: configuration.line(), steps: budget })
    }
}
