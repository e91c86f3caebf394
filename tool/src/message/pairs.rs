//! How what flows goes through a pair: the script makes the pair of it, or takes a part of it.

use reference::flow::{Endorsement, NoFlow, Through};
use reference::script::{Command, Expression, Phrase, Script, Term};
use reference::script_text;
use reference::sheet::Sheet;
use reference::Reason;
use std::collections::BTreeSet;

/// What a pair has to do with the source of a flow.
#[derive(Clone, Copy, Debug, PartialEq, Eq)]
pub enum Paired {
    /// The source goes into a part of a pair that is made.
    Made(Step),
    /// It does, and the other part is taken.
    Other { made: Step, taken: Step },
    /// The source is a pair, and a part of it is taken.
    Taken(Step),
}

/// A line that makes or takes a part of a pair.
#[derive(Clone, Copy, Debug, PartialEq, Eq)]
pub struct Step {
    line: usize,
    makes: bool,
    part: Part,
}

#[derive(Clone, Copy, Debug, PartialEq, Eq)]
enum Part {
    First,
    Second,
}

impl Part {
    fn name(self) -> &'static str {
        match self {
            Part::First => "first",
            Part::Second => "second",
        }
    }

    /// The kind of line that takes it.
    fn taker(self) -> &'static str {
        match self {
            Part::First => "`f`",
            Part::Second => "`g`",
        }
    }
}

impl Paired {
    /// Of a script that is refused for its labels.
    pub fn of_refusal(reason: &Reason, text: &[u8], sheet: &Sheet) -> Option<Paired> {
        let Reason::Labels(NoFlow { line, source, through, .. }) = reason else {
            return None;
        };
        let sink = match through {
            Through::Value => *line,
            Through::Guard(guard) => *guard,
            Through::Start => return None,
        };
        Paired::between(&script_text::parse(sheet, text).ok()?, sink, source.line)
    }

    /// Of an unpack by which an accepted script isn't trust-keeping.
    pub fn of_unpack(unpack: &Endorsement, text: &[u8], sheet: &Sheet) -> Option<Paired> {
        Paired::between(&script_text::parse(sheet, text).ok()?, unpack.line, unpack.source.line)
    }

    /// On the way to the expression of the line `sink` from the line `source`.
    fn between(script: &Script, sink: usize, source: usize) -> Option<Paired> {
        let (operand, cases) = operand_of(&script.command, sink, &mut Vec::new())?;
        let mut way = Way { source, tried: BTreeSet::new() };
        paired(&way.down(operand, &cases)?)
    }

    /// The same with so many lines before the script.
    pub fn shifted(self, before: usize) -> Paired {
        let shifted = |step: Step| Step { line: step.line + before, ..step };
        match self {
            Paired::Made(step) => Paired::Made(shifted(step)),
            Paired::Taken(step) => Paired::Taken(shifted(step)),
            Paired::Other { made, taken } => {
                Paired::Other { made: shifted(made), taken: shifted(taken) }
            }
        }
    }

    /// Adds it to what is told of the flow.
    pub fn add(&self, fact: &mut String, advice: &mut String) {
        let goes = |made: &Step| {
            let Step { line, part, .. } = made;
            format!("; it goes into the {} part of the pair made in line {line}", part.name())
        };
        match self {
            Paired::Made(made) => {
                *fact += &format!("{}, and a pair has the labels of both its parts", goes(made));
            }
            Paired::Other { made, taken } => {
                let (which, taker, line) = (taken.part.name(), taken.part.taker(), taken.line);
                *fact += &format!(
                    "{}, and the {which} part, which {taker} takes in line {line}, has the label \
                     of the whole",
                    goes(made)
                );
                *advice += &format!("; or use the {which} operand of that `p` without the pair");
            }
            Paired::Taken(Step { line, part, .. }) => {
                let taker = part.taker();
                *fact += &format!(
                    "; the part that {taker} takes in line {line} has the label of the whole pair"
                );
            }
        }
    }
}

/// Of the steps down to a source: the first that makes the other part than the one that is taken,
/// else the first that makes a part which isn't taken out again, else the last that takes one.
fn paired(steps: &[Step]) -> Option<Paired> {
    let (mut takes, mut kept) = (Vec::new(), None);
    for &step in steps {
        if !step.makes {
            takes.push(step);
            continue;
        }
        match takes.pop() {
            None => kept = kept.or(Some(Paired::Made(step))),
            Some(taken) if taken.part == step.part => {}
            Some(taken) => return Some(Paired::Other { made: step, taken }),
        }
    }
    kept.or(takes.pop().map(Paired::Taken))
}

/// An expression, and those of the cases that it stands in, the innermost last.
type Place<'a> = (&'a Expression, Vec<&'a Expression>);

/// The expression that belongs to a line.
fn operand_of<'a>(
    command: &'a Command,
    line: usize,
    cases: &mut Vec<&'a Expression>,
) -> Option<Place<'a>> {
    let within = |e: &'a Expression, cases: &[&'a Expression]| {
        let found = if command.line == line { Some(e) } else { operand_within(e, line) };
        found.map(|e| (e, cases.to_vec()))
    };
    match &command.phrase {
        Phrase::Skip => None,
        Phrase::Assign(_, e) => within(e, cases),
        Phrase::Seq(first, second) => {
            operand_of(first, line, cases).or_else(|| operand_of(second, line, cases))
        }
        Phrase::While(e, body) => within(e, cases).or_else(|| operand_of(body, line, cases)),
        Phrase::Case(e, left, right) => within(e, cases).or_else(|| {
            cases.push(e);
            let found = operand_of(left, line, cases).or_else(|| operand_of(right, line, cases));
            cases.pop();
            found
        }),
    }
}

/// The operand of a pack or an unpack that stands in an expression.
fn operand_within(e: &Expression, line: usize) -> Option<&Expression> {
    match &e.term {
        Term::Pack(_, operand) | Term::Unpack(_, _, operand) if e.line == line => Some(operand),
        _ => operands(e).into_iter().find_map(|operand| operand_within(operand, line)),
    }
}

fn operands(e: &Expression) -> Vec<&Expression> {
    match &e.term {
        Term::Integer(_) | Term::Location(_) | Term::Bound(_) | Term::Value(_) => Vec::new(),
        Term::Plus(e1, e2) | Term::Pair(_, e1, e2) => vec![e1, e2],
        Term::Left(_, e) | Term::Right(_, e) | Term::First(e) | Term::Second(e) => vec![e],
        Term::Pack(_, e) | Term::Unpack(_, _, e) => vec![e],
    }
}

/// A way down to the line of a source.
struct Way {
    source: usize,
    /// The expressions of cases that it isn't in, by their lines.
    tried: BTreeSet<usize>,
}

impl Way {
    /// The lines on it that make or take parts of pairs.
    fn down(&mut self, e: &Expression, cases: &[&Expression]) -> Option<Vec<Step>> {
        if e.line == self.source {
            return Some(Vec::new());
        }
        let step = |makes, part| Step { line: e.line, makes, part };
        match &e.term {
            Term::Bound(d) => {
                let place = cases.len().checked_sub(d + 1)?;
                let fresh = self.tried.insert(cases[place].line);
                fresh.then(|| self.down(cases[place], &cases[..place]))?
            }
            Term::Plus(e1, e2) => self.down(e1, cases).or_else(|| self.down(e2, cases)),
            Term::Left(_, e) | Term::Right(_, e) => self.down(e, cases),
            Term::Pair(_, e1, e2) => after(step(true, Part::First), self.down(e1, cases))
                .or_else(|| after(step(true, Part::Second), self.down(e2, cases))),
            Term::First(e) => after(step(false, Part::First), self.down(e, cases)),
            Term::Second(e) => after(step(false, Part::Second), self.down(e, cases)),
            // what these give has a label of its own
            Term::Pack(..) | Term::Unpack(..) => None,
            Term::Integer(_) | Term::Location(_) | Term::Value(_) => None,
        }
    }
}

fn after(step: Step, steps: Option<Vec<Step>>) -> Option<Vec<Step>> {
    steps.map(|steps| [vec![step], steps].concat())
}
