//! The reader of a script: what it opens with, and one command in prefix order.

use crate::script::{Command, Expression, Opening, Phrase, Script, Start, Term};
use crate::sheet::Sheet;
use crate::text::{
    fields, lines, name, number, Cause, Counted, Expected, Fault, Operand, Sort, Thing,
};
use std::rc::Rc;

const MOST_LINES: usize = 512;
const MOST_CASES: usize = 8;

pub fn parse(sheet: &Sheet, text: &[u8]) -> Result<Script, Fault> {
    let lines = lines(text)?;
    if lines.is_empty() {
        return Err(Cause::NoLines.at(1));
    }
    if lines.len() > MOST_LINES {
        let cause = Cause::TooMany { what: Counted::ScriptLines, most: MOST_LINES };
        return Err(cause.at(MOST_LINES + 1));
    }
    let mut reader = Reader { sheet, lines: &lines, read: 0, started: false };
    let opening = reader.opening()?;
    let command = reader.command(0, None)?;
    reader.end()?;
    Ok(Script { opening, command })
}

/// The sheet that names are looked up on, the lines, how many of them are read, and whether the
/// script opens with a `b` line.
struct Reader<'a> {
    sheet: &'a Sheet,
    lines: &'a [&'a [u8]],
    read: usize,
    started: bool,
}

/// An opening line, or one that a command or an expression starts with.
struct Head<'a> {
    line: usize,
    kind: &'a [u8],
    names: Vec<&'a [u8]>,
}

impl Head<'_> {
    fn fault(&self, cause: Cause) -> Fault {
        cause.at(self.line)
    }

    /// Names one of `count` things by the field after the first.
    fn name(&self, field: &[u8], count: usize, thing: Thing) -> Result<usize, Fault> {
        name(field, count, thing).map_err(|cause| self.fault(cause))
    }

    /// That the kind isn't one that may stand here, or that its fields are too few or too many.
    fn wrong(&self, counts: &[(&str, usize)], role: Option<Operand>) -> Fault {
        let kind = self.kind.to_vec();
        let count = counts.iter().find(|(known, _)| known.as_bytes() == self.kind);
        self.fault(match count {
            Some(&(_, wanted)) => Cause::FieldCount { kind, wanted, found: self.names.len() },
            None => Cause::LineKind {
                found: kind,
                expected: role.map_or(Expected::Script, Expected::Operand),
            },
        })
    }
}

/// The kinds of line, each with the number of fields after the first.
const OPENINGS: &[(&str, usize)] = &[("b", 1)];
const COMMANDS: &[(&str, usize)] = &[("s", 0), (";", 0), ("=", 1), ("w", 0), ("c", 0)];
const EXPRESSIONS: &[(&str, usize)] = &[
    ("i", 1),
    ("x", 1),
    ("v", 1),
    ("+", 0),
    ("l", 1),
    ("r", 1),
    ("k", 1),
    ("u", 2),
    ("p", 1),
    ("f", 0),
    ("g", 0),
];

/// Whether a line names the label that a script starts at.
fn is_start(line: &[u8]) -> bool {
    fields(line)[0] == b"b"
}

impl<'a> Reader<'a> {
    /// The next line, which starts the operand `role` of an earlier one, or the script.
    fn line(&mut self, role: Option<Operand>) -> Result<Head<'a>, Fault> {
        let Some(line) = self.lines.get(self.read) else {
            return Err(match role {
                Some(role) => Cause::Ends(role).at(role.line),
                None => Cause::NoCommand.at(self.read),
            });
        };
        self.read += 1;
        if line.is_empty() {
            return Err(Cause::EmptyLine.at(self.read));
        }
        let mut names = fields(line);
        let kind = names.remove(0);
        Ok(Head { line: self.read, kind, names })
    }

    /// What the script opens with.
    fn opening(&mut self) -> Result<Opening, Fault> {
        if !self.lines.first().is_some_and(|line| is_start(line)) {
            return Ok(Opening::default());
        }
        let head = self.line(None)?;
        let &[label] = head.names.as_slice() else {
            return Err(head.wrong(OPENINGS, None));
        };
        let label = head.name(label, self.sheet.labels.len(), Thing::Label)?;
        self.started = true;
        Ok(Opening { start: Some(Start { line: head.line, label }) })
    }

    /// That no line is left.
    fn end(&self) -> Result<(), Fault> {
        let cause = match self.lines.get(self.read) {
            None => return Ok(()),
            Some([]) => Cause::EmptyLine,
            Some(line) if is_start(line) => Cause::LateStart { again: self.started, ended: true },
            Some(_) => Cause::LeftOver,
        };
        Err(cause.at(self.read + 1))
    }

    /// That a line can't be what a command or an expression, the operand `role`, starts with.
    fn wrong(&self, head: &Head, counts: &[(&str, usize)], role: Option<Operand>) -> Fault {
        if is_start(head.kind) {
            head.fault(Cause::LateStart { again: self.started, ended: false })
        } else {
            head.wrong(counts, role)
        }
    }

    /// A command inside `cases` cases.
    fn command(&mut self, cases: usize, role: Option<Operand>) -> Result<Command, Fault> {
        let head = self.line(role)?;
        let line = head.line;
        let phrase = match (head.kind, head.names.as_slice()) {
            (b"s", []) => Phrase::Skip,
            (b";", []) => {
                Phrase::Seq(self.part(cases, line, ";", 0)?, self.part(cases, line, ";", 1)?)
            }
            (b"=", [location]) => {
                let location = head.name(location, self.sheet.locations.len(), Thing::Location)?;
                Phrase::Assign(location, self.operand(cases, line, "=", 0)?)
            }
            (b"w", []) => {
                let guard = self.operand(cases, line, "w", 0)?;
                Phrase::While(guard, self.part(cases, line, "w", 1)?)
            }
            (b"c", []) if cases == MOST_CASES => return Err(head.fault(Cause::CaseDepth)),
            (b"c", []) => {
                let expression = self.operand(cases, line, "c", 0)?;
                let left = self.part(cases + 1, line, "c", 1)?;
                Phrase::Case(expression, left, self.part(cases + 1, line, "c", 2)?)
            }
            _ => return Err(self.wrong(&head, COMMANDS, role)),
        };
        Ok(Command { line, phrase })
    }

    /// The command that is the operand `place` of the line `line`.
    fn part(
        &mut self,
        cases: usize,
        line: usize,
        kind: &'static str,
        place: usize,
    ) -> Result<Rc<Command>, Fault> {
        let role = Operand { line, kind, place, sort: Sort::Command };
        Ok(Rc::new(self.command(cases, Some(role))?))
    }

    /// The expression that is the operand `place` of the line `line`, inside `cases` cases.
    fn operand(
        &mut self,
        cases: usize,
        line: usize,
        kind: &'static str,
        place: usize,
    ) -> Result<Expression, Fault> {
        let role = Operand { line, kind, place, sort: Sort::Expression };
        let head = self.line(Some(role))?;
        let line = head.line;
        let (types, labels) = (self.sheet.types.len(), self.sheet.labels.len());
        let term = match (head.kind, head.names.as_slice()) {
            (b"i", [n]) => {
                let wrong = |_| head.fault(Cause::Integer(n.to_vec()));
                Term::Integer(number(n).map_err(wrong)?)
            }
            (b"x", [location]) => {
                Term::Location(head.name(location, self.sheet.locations.len(), Thing::Location)?)
            }
            (b"v", [d]) => Term::Bound(head.name(d, cases, Thing::Binding)?),
            (b"+", []) => {
                Term::Plus(self.boxed(cases, line, "+", 0)?, self.boxed(cases, line, "+", 1)?)
            }
            (b"l", [ty]) => {
                let ty = head.name(ty, types, Thing::Type)?;
                Term::Left(ty, self.boxed(cases, line, "l", 0)?)
            }
            (b"r", [ty]) => {
                let ty = head.name(ty, types, Thing::Type)?;
                Term::Right(ty, self.boxed(cases, line, "r", 0)?)
            }
            (b"k", [label]) => {
                let label = head.name(label, labels, Thing::Label)?;
                Term::Pack(label, self.boxed(cases, line, "k", 0)?)
            }
            (b"u", [ty, label]) => {
                let ty = head.name(ty, types, Thing::Type)?;
                let label = head.name(label, labels, Thing::Label)?;
                Term::Unpack(ty, label, self.boxed(cases, line, "u", 0)?)
            }
            (b"p", [ty]) => {
                let ty = head.name(ty, types, Thing::Type)?;
                let first = self.boxed(cases, line, "p", 0)?;
                Term::Pair(ty, first, self.boxed(cases, line, "p", 1)?)
            }
            (b"f", []) => Term::First(self.boxed(cases, line, "f", 0)?),
            (b"g", []) => Term::Second(self.boxed(cases, line, "g", 0)?),
            _ => return Err(self.wrong(&head, EXPRESSIONS, Some(role))),
        };
        Ok(Expression { line, term })
    }

    fn boxed(
        &mut self,
        cases: usize,
        line: usize,
        kind: &'static str,
        place: usize,
    ) -> Result<Box<Expression>, Fault> {
        self.operand(cases, line, kind, place).map(Box::new)
    }
}
