//! Typing with every label condition struck out, after figures 4 and 5.

use crate::script::{Command, Expression, Phrase, Term};
use crate::sheet::{LocationId, Sheet};
use crate::types::{TypeId, CHOICE, ERROR, INT, PACKAGE, PACKED};

/// Why no derivation exists: the line whose rule fails, the rule, and what is wrong with it.
#[derive(Clone, Debug, PartialEq, Eq)]
pub struct NoShape {
    pub line: usize,
    pub rule: Rule,
    pub misfit: Misfit,
}

/// What a line asks of types.
#[derive(Clone, Copy, Debug, PartialEq, Eq)]
pub enum Rule {
    Assign(LocationId),
    While,
    Case,
    Plus,
    Left(TypeId),
    Right(TypeId),
    Unpack(TypeId),
    Pair(TypeId),
    First,
    Second,
}

#[derive(Clone, Copy, Debug, PartialEq, Eq)]
pub enum Misfit {
    /// The operand that starts in line `operand` has the type `found`, and `wanted` is asked.
    Operand { operand: usize, found: TypeId, wanted: TypeId },
    /// The expression of a case, which starts in line `operand`, has a type that isn't a sum.
    CaseOf { operand: usize, found: TypeId },
    /// The type that the line names isn't a sum.
    NoSum(TypeId),
    /// The sum that the line names hasn't error on its right.
    NoError(TypeId),
    /// The type that the line names isn't a pair.
    NoPair(TypeId),
    /// The operand of `f` or `g`, which starts in line `operand`, has a type that isn't a pair.
    PartOf { operand: usize, found: TypeId },
}

/// Whether the command of a script has a derivation.
pub fn check(sheet: &Sheet, c: &Command) -> Result<(), NoShape> {
    command(sheet, &mut Vec::new(), c)
}

/// `bound` holds the types of the bound values, the innermost last.
fn command(sheet: &Sheet, bound: &mut Vec<TypeId>, c: &Command) -> Result<(), NoShape> {
    let expect = |bound: &[TypeId], rule, e, ty| expect(sheet, bound, c.line, rule, e, ty);
    match &c.phrase {
        Phrase::Skip => Ok(()),
        Phrase::Seq(first, second) => {
            command(sheet, bound, first)?;
            command(sheet, bound, second)
        }
        Phrase::Assign(location, e) => {
            expect(bound, Rule::Assign(*location), e, sheet.locations[*location].ty)
        }
        Phrase::While(guard, body) => {
            expect(bound, Rule::While, guard, CHOICE)?;
            command(sheet, bound, body)
        }
        Phrase::Case(e, on_left, on_right) => {
            let found = expression(sheet, bound, e)?;
            let misfit = Misfit::CaseOf { operand: e.line, found };
            let none = NoShape { line: c.line, rule: Rule::Case, misfit };
            let (left, right) = sheet.parts(found).ok_or(none)?;
            branch(sheet, bound, left, on_left)?;
            branch(sheet, bound, right, on_right)
        }
    }
}

/// A branch of a case that binds a value of type `ty`.
fn branch(sheet: &Sheet, bound: &mut Vec<TypeId>, ty: TypeId, c: &Command) -> Result<(), NoShape> {
    bound.push(ty);
    let typed = command(sheet, bound, c);
    bound.pop();
    typed
}

/// That the operand of a line has the type that its rule asks.
fn expect(
    sheet: &Sheet,
    bound: &[TypeId],
    line: usize,
    rule: Rule,
    operand: &Expression,
    wanted: TypeId,
) -> Result<(), NoShape> {
    let found = expression(sheet, bound, operand)?;
    if found == wanted {
        Ok(())
    } else {
        let misfit = Misfit::Operand { operand: operand.line, found, wanted };
        Err(NoShape { line, rule, misfit })
    }
}

/// An expression has at most one type.
fn expression(sheet: &Sheet, bound: &[TypeId], e: &Expression) -> Result<TypeId, NoShape> {
    let expect = |rule, operand, ty| expect(sheet, bound, e.line, rule, operand, ty);
    let none = |rule, misfit| NoShape { line: e.line, rule, misfit };
    let parts = |rule, ty| sheet.parts(ty).ok_or(none(rule, Misfit::NoSum(ty)));
    match &e.term {
        Term::Integer(_) => Ok(INT),
        Term::Location(location) => Ok(sheet.locations[*location].ty),
        Term::Bound(d) => Ok(bound[bound.len() - 1 - d]),
        Term::Plus(e1, e2) => {
            expect(Rule::Plus, e1, INT)?;
            expect(Rule::Plus, e2, INT)?;
            Ok(INT)
        }
        Term::Left(ty, operand) => {
            let rule = Rule::Left(*ty);
            let (left, _) = parts(rule, *ty)?;
            expect(rule, operand, left)?;
            Ok(*ty)
        }
        Term::Right(ty, operand) => {
            let rule = Rule::Right(*ty);
            let (_, right) = parts(rule, *ty)?;
            expect(rule, operand, right)?;
            Ok(*ty)
        }
        Term::Pack(_, operand) => expression(sheet, bound, operand).map(|_| PACKED),
        Term::Unpack(ty, _, operand) => {
            let rule = Rule::Unpack(*ty);
            let (_, right) = parts(rule, *ty)?;
            if right != ERROR {
                return Err(none(rule, Misfit::NoError(*ty)));
            }
            expect(rule, operand, PACKAGE)?;
            Ok(*ty)
        }
        Term::Pair(ty, e1, e2) => {
            let rule = Rule::Pair(*ty);
            let (first, second) = sheet.pair_parts(*ty).ok_or(none(rule, Misfit::NoPair(*ty)))?;
            expect(rule, e1, first)?;
            expect(rule, e2, second)?;
            Ok(*ty)
        }
        Term::First(operand) => Ok(taken_apart(sheet, bound, e.line, Rule::First, operand)?.0),
        Term::Second(operand) => Ok(taken_apart(sheet, bound, e.line, Rule::Second, operand)?.1),
        Term::Value(_) => unreachable!("no script has a value"),
    }
}

/// The types of the two parts of the operand of a line that takes one of them.
fn taken_apart(
    sheet: &Sheet,
    bound: &[TypeId],
    line: usize,
    rule: Rule,
    operand: &Expression,
) -> Result<(TypeId, TypeId), NoShape> {
    let found = expression(sheet, bound, operand)?;
    let misfit = Misfit::PartOf { operand: operand.line, found };
    sheet.pair_parts(found).ok_or(NoShape { line, rule, misfit })
}

#[cfg(test)]
mod tests {
    use super::{check, Misfit, NoShape, Rule};
    use crate::{script_text, sheet_text};

    /// Type 5 is the pair of an int and an error, type 6 their sum. Location 0 is an int, 1 a pair
    /// and 2 a sum.
    const SHEET: &[u8] = b"P\t1\nQ\t0\t1\nT\t0\t1\nL\nX\t0\t0\nX\t5\t0\nX\t6\t0\n";

    /// What is wrong with the types of a script, written with blanks and commas.
    fn misfit(script: &str) -> Option<(usize, Rule, Misfit)> {
        let sheet = sheet_text::parse(SHEET).expect("a sheet");
        let text = script.replace(' ', "\t").replace(',', "\n") + "\n";
        let script = script_text::parse(&sheet, text.as_bytes()).expect("a script");
        let refused = check(&sheet, &script.command).err();
        refused.map(|NoShape { line, rule, misfit }| (line, rule, misfit))
    }

    #[test]
    fn the_parts_of_a_pair_have_their_types() {
        for typed in ["= 1,p 5,x 0,g,x 1", "= 0,f,x 1", "= 2,r 6,g,p 5,i 1,g,x 1"] {
            assert_eq!(misfit(typed), None, "{typed}");
        }
        let operand = |operand, found, wanted| Misfit::Operand { operand, found, wanted };
        assert_eq!(misfit("= 1,p 5,x 1,g,x 1"), Some((2, Rule::Pair(5), operand(3, 5, 0))));
        assert_eq!(misfit("= 1,p 5,x 0,x 0"), Some((2, Rule::Pair(5), operand(4, 0, 1))));
        assert_eq!(misfit("= 0,g,x 1"), Some((1, Rule::Assign(0), operand(2, 1, 0))));
        assert_eq!(misfit("= 2,x 1"), Some((1, Rule::Assign(2), operand(2, 5, 6))));
        assert_eq!(misfit("w,x 1,s"), Some((1, Rule::While, operand(2, 5, 3))));
    }

    #[test]
    fn a_type_of_the_wrong_kind_is_told_before_the_operands() {
        assert_eq!(misfit("= 1,p 6,x 2,x 2"), Some((2, Rule::Pair(6), Misfit::NoPair(6))));
        assert_eq!(misfit("= 1,p 3,i 1,i 1"), Some((2, Rule::Pair(3), Misfit::NoPair(3))));
        assert_eq!(misfit("= 2,l 5,x 0"), Some((2, Rule::Left(5), Misfit::NoSum(5))));
        assert_eq!(misfit("= 2,u 5 0,x 0"), Some((2, Rule::Unpack(5), Misfit::NoSum(5))));
        let part = |operand, found| Misfit::PartOf { operand, found };
        assert_eq!(misfit("= 0,f,x 2"), Some((2, Rule::First, part(3, 6))));
        assert_eq!(misfit("= 0,+,i 1,g,f,x 1"), Some((4, Rule::Second, part(5, 0))));
        let case_of = Misfit::CaseOf { operand: 2, found: 5 };
        assert_eq!(misfit("c,x 1,s,s"), Some((1, Rule::Case, case_of)));
    }
}
