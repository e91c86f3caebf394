//! The parts of a pair that is too long: the reference goes to the step that meets it.

use reference::calls::read_memory;
use reference::evaluate::{evaluate, Context};
use reference::machine::{Configuration, Stopped};
use reference::principals::Principals;
use reference::script::{Command, Expression, Phrase, Term};
use reference::script_text;
use reference::sheet::Sheet;
use reference::Reason;
use std::rc::Rc;

/// The line of a `p` whose pair is too long, and the steps before the one that meets it.
#[derive(Clone, Copy)]
pub struct LongPair {
    line: usize,
    steps: u32,
}

impl LongPair {
    /// Of a script that stopped for this reason, if a pair is what stopped it.
    pub fn of(reason: &Reason, script: &[u8]) -> Option<LongPair> {
        let Reason::Stopped(Stopped::TooLong { at, steps }) = *reason else {
            return None;
        };
        let line = script.split(|&byte| byte == b'\n').nth(at.line.checked_sub(1)?)?;
        line.starts_with(b"p\t").then_some(LongPair { line: at.line, steps })
    }
}

/// What a run started from.
pub struct Started<'a> {
    pub sheet: &'a Sheet,
    pub script: &'a [u8],
    pub memory: &'a [u32],
    pub authority: u16,
}

impl Started<'_> {
    /// The words of each part of a pair that stopped the run.
    pub fn parts(&self, pair: LongPair) -> Option<[usize; 2]> {
        let command = Rc::new(script_text::parse(self.sheet, self.script).ok()?.command);
        let memory = read_memory(self.sheet, self.memory).ok()?;
        let authority = Principals::from_bits(self.authority);
        let context = Context { sheet: self.sheet, authority };
        let mut run = Configuration { memory, command };
        for _ in 0..pair.steps {
            run.step(&context).ok()?;
        }
        let (first, second) = pair_in(next(&run.command)?, pair.line)?;
        let words = |part| evaluate(&context, &run.memory, part).ok().map(|value| value.length());
        Some([words(first)?, words(second)?])
    }
}

/// The expression of the next transition.
fn next(command: &Command) -> Option<&Expression> {
    match &command.phrase {
        Phrase::Skip => None,
        Phrase::Seq(first, _) => next(first),
        Phrase::Assign(_, e) | Phrase::While(e, _) | Phrase::Case(e, _, _) => Some(e),
    }
}

/// The operands of the `p` in a line.
fn pair_in(e: &Expression, line: usize) -> Option<(&Expression, &Expression)> {
    match &e.term {
        Term::Pair(_, first, second) if e.line == line => Some((first, second)),
        Term::Pair(_, first, second) | Term::Plus(first, second) => {
            pair_in(first, line).or_else(|| pair_in(second, line))
        }
        Term::Left(_, e) | Term::Right(_, e) | Term::First(e) | Term::Second(e) => pair_in(e, line),
        Term::Pack(_, e) | Term::Unpack(_, _, e) => pair_in(e, line),
        Term::Integer(_) | Term::Location(_) | Term::Bound(_) | Term::Value(_) => None,
    }
}
