//! Scripts: what one opens with, then commands and expressions after the grammar of the paper's
//! section 2.3, each with its line.

use crate::label::Label;
use crate::sheet::{LabelId, LocationId, Sheet};
use crate::types::TypeId;
use crate::value::Value;
use std::rc::Rc;

#[derive(Clone, Debug, PartialEq, Eq)]
pub struct Script {
    pub opening: Opening,
    pub command: Command,
}

/// What stands before the command. It is no part of it and takes no step.
#[derive(Clone, Copy, Debug, Default, PartialEq, Eq)]
pub struct Opening {
    pub start: Option<Start>,
}

/// The label that a `b` line names, and that line.
#[derive(Clone, Copy, Debug, PartialEq, Eq)]
pub struct Start {
    pub line: usize,
    pub label: LabelId,
}

impl Opening {
    /// The label that the surrounding label starts at: that of `b`, else bottom.
    pub fn starting_label(&self, sheet: &Sheet) -> Label {
        match self.start {
            Some(start) => sheet.labels[start.label].clone(),
            None => Label::bottom(sheet.principals),
        }
    }
}

#[derive(Clone, Debug, PartialEq, Eq)]
pub struct Command {
    /// The line that it starts with, counted from 1.
    pub line: usize,
    pub phrase: Phrase,
}

#[derive(Clone, Debug, PartialEq, Eq)]
pub enum Phrase {
    Skip,
    Seq(Rc<Command>, Rc<Command>),
    Assign(LocationId, Expression),
    While(Expression, Rc<Command>),
    Case(Expression, Rc<Command>, Rc<Command>),
}

#[derive(Clone, Debug, PartialEq, Eq)]
pub struct Expression {
    pub line: usize,
    pub term: Term,
}

#[derive(Clone, Debug, PartialEq, Eq)]
pub enum Term {
    Integer(u32),
    Location(LocationId),
    /// The value bound by the d-th enclosing case, innermost 0.
    Bound(usize),
    Plus(Box<Expression>, Box<Expression>),
    /// The sum type made, and the operand.
    Left(TypeId, Box<Expression>),
    Right(TypeId, Box<Expression>),
    Pack(LabelId, Box<Expression>),
    /// The sum type made, the wanted label, and the operand.
    Unpack(TypeId, LabelId, Box<Expression>),
    /// The pair type made, and both operands.
    Pair(TypeId, Box<Expression>, Box<Expression>),
    /// A part of the pair that the operand is.
    First(Box<Expression>),
    Second(Box<Expression>),
    /// A value put in the place of a bound one. No script has it.
    Value(Value),
}

impl Command {
    pub fn is_skip(&self) -> bool {
        self.phrase == Phrase::Skip
    }

    /// Puts a value in the place of what the `depth`-th enclosing case binds.
    pub fn substitute(&self, depth: usize, value: &Value) -> Command {
        let inner = |c: &Rc<Command>, depth| Rc::new(c.substitute(depth, value));
        let phrase = match &self.phrase {
            Phrase::Skip => Phrase::Skip,
            Phrase::Seq(first, second) => Phrase::Seq(inner(first, depth), inner(second, depth)),
            Phrase::Assign(location, e) => Phrase::Assign(*location, e.substitute(depth, value)),
            Phrase::While(guard, body) => {
                Phrase::While(guard.substitute(depth, value), inner(body, depth))
            }
            Phrase::Case(e, left, right) => Phrase::Case(
                e.substitute(depth, value),
                inner(left, depth + 1),
                inner(right, depth + 1),
            ),
        };
        Command { line: self.line, phrase }
    }
}

impl Expression {
    pub fn substitute(&self, depth: usize, value: &Value) -> Expression {
        let inner = |e: &Expression| Box::new(e.substitute(depth, value));
        let term = match &self.term {
            Term::Bound(d) if *d == depth => Term::Value(value.clone()),
            Term::Integer(_) | Term::Location(_) | Term::Bound(_) | Term::Value(_) => {
                self.term.clone()
            }
            Term::Plus(e1, e2) => Term::Plus(inner(e1), inner(e2)),
            Term::Left(ty, e) => Term::Left(*ty, inner(e)),
            Term::Right(ty, e) => Term::Right(*ty, inner(e)),
            Term::Pack(label, e) => Term::Pack(*label, inner(e)),
            Term::Unpack(ty, label, e) => Term::Unpack(*ty, *label, inner(e)),
            Term::Pair(ty, e1, e2) => Term::Pair(*ty, inner(e1), inner(e2)),
            Term::First(e) => Term::First(inner(e)),
            Term::Second(e) => Term::Second(inner(e)),
        };
        Expression { line: self.line, term }
    }
}

#[cfg(test)]
mod tests {
    use super::{Command, Expression, Phrase, Term};
    use crate::value::Value;
    use std::rc::Rc;

    #[test]
    fn substitution_reaches_the_right_binding() {
        let expression = |line, term| Expression { line, term };
        let assign = |line, term| {
            let phrase = Phrase::Assign(0, expression(line + 1, term));
            Rc::new(Command { line, phrase })
        };
        let case = |term, left, right| Command {
            line: 1,
            phrase: Phrase::Case(expression(2, term), left, right),
        };
        let inner = assign(3, Term::Bound(0));
        let command = case(Term::Bound(0), inner.clone(), assign(5, Term::Bound(1)));
        let value = Value::Integer(7);
        let put = Term::Value(value.clone());
        let expected = case(put.clone(), inner, assign(5, put));
        assert_eq!(command.substitute(0, &value), expected);
    }
}
