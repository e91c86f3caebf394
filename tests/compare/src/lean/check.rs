//! Types and least labels in one pass. Types come first: a label condition that fails is noted, and
//! the pass goes on.

use super::label::Join;
use super::script::{opening, Row, Script, MOST_CASES};
use super::sheet::{Sheet, CHOICE, ERROR, INT, PACKAGE, PACKED};
use reference::answer::Refusal;

/// An expression's type and least label.
#[derive(Clone, Copy, Default)]
struct Typed {
    ty: u8,
    label: Join,
}

struct Checker<'a> {
    sheet: &'a Sheet,
    rows: &'a [Row],
    /// By depth: what the cases around a row bind. Only the entries of these are looked at.
    bound: [Typed; MOST_CASES],
    flows: bool,
    keeping: bool,
}

/// 5 and 6, and then whether the script is trust-keeping.
pub fn check(sheet: &Sheet, script: &Script) -> Result<bool, Refusal> {
    let bound = [Typed::default(); MOST_CASES];
    let mut checker = Checker { sheet, rows: script, bound, flows: true, keeping: true };
    let (start, at) = opening(script);
    let surrounding = start.map_or(Join::default(), Join::label);
    checker.command(at, surrounding).ok_or(Refusal::NoShape)?;
    if checker.flows {
        Ok(checker.keeping)
    } else {
        Err(Refusal::NoFlow)
    }
}

impl Checker<'_> {
    /// Notes whether a join may flow to a label.
    fn flow(&mut self, from: Join, to: u8) {
        self.flows = self.flows && from.at_or_below(&self.sheet.labels, to);
    }

    /// Notes whether an unpack's operand may flow to the wanted label by its readers, and whether by
    /// its writers too.
    fn open(&mut self, operand: Join, wanted: u8) {
        self.flow(operand.confidentiality(), wanted);
        self.keeping = self.keeping && operand.at_or_below(&self.sheet.labels, wanted);
    }

    /// The command at a row, with the surrounding label. Nothing where it has no type.
    fn command(&mut self, mut at: usize, surrounding: Join) -> Option<()> {
        loop {
            match self.rows[at] {
                Row::Skip => return Some(()),
                Row::Seq { second } => {
                    self.command(at + 1, surrounding)?;
                    at = second.into();
                }
                Row::Assign { location } => {
                    let target = self.sheet.locations[usize::from(location)];
                    let label = self.expect(at + 1, target.ty)?;
                    self.flow(label.join(surrounding), target.label);
                    return Some(());
                }
                Row::While { body } => {
                    let label = self.expect(at + 1, CHOICE)?;
                    return self.command(body.into(), surrounding.join(label));
                }
                Row::Case { depth, left, right } => {
                    let Typed { ty, label } = self.expression(at + 1)?;
                    let (on_left, on_right) = self.sheet.parts(ty)?;
                    let inside = surrounding.join(label);
                    self.bound[usize::from(depth)] = Typed { ty: on_left, label };
                    self.command(left.into(), inside)?;
                    self.bound[usize::from(depth)] = Typed { ty: on_right, label };
                    return self.command(right.into(), inside);
                }
                _ => unreachable!("an expression stands in no command's place"),
            }
        }
    }

    /// The least label of an expression of a type.
    fn expect(&mut self, at: usize, ty: u8) -> Option<Join> {
        let typed = self.expression(at)?;
        (typed.ty == ty).then_some(typed.label)
    }

    fn expression(&mut self, at: usize) -> Option<Typed> {
        let (ty, label) = match self.rows[at] {
            Row::Integer(_) => (INT, Join::default()),
            Row::Location(location) => {
                let location = self.sheet.locations[usize::from(location)];
                (location.ty, Join::label(location.label))
            }
            Row::Bound { depth } => return Some(self.bound[usize::from(depth)]),
            Row::Plus { second } => {
                let label = self.expect(at + 1, INT)?;
                (INT, label.join(self.expect(second.into(), INT)?))
            }
            Row::Left { ty } => (ty, self.expect(at + 1, self.sheet.parts(ty)?.0)?),
            Row::Right { ty } => (ty, self.expect(at + 1, self.sheet.parts(ty)?.1)?),
            Row::Pack { label } => {
                let operand = self.expression(at + 1)?;
                self.flow(operand.label, label);
                (PACKED, Join::integrity(label))
            }
            Row::Unpack { ty, label } => {
                let (_, on_right) = self.sheet.parts(ty)?;
                let operand = self.expect(at + 1, PACKAGE)?;
                self.open(operand, label);
                if on_right != ERROR {
                    return None;
                }
                (ty, Join::label(label))
            }
            Row::Pair { ty, second } => {
                let (on_first, on_second) = self.sheet.pair_parts(ty)?;
                let label = self.expect(at + 1, on_first)?;
                (ty, label.join(self.expect(second.into(), on_second)?))
            }
            Row::First => {
                let Typed { ty, label } = self.expression(at + 1)?;
                (self.sheet.pair_parts(ty)?.0, label)
            }
            Row::Second => {
                let Typed { ty, label } = self.expression(at + 1)?;
                (self.sheet.pair_parts(ty)?.1, label)
            }
            _ => unreachable!("a command stands in no expression's place"),
        };
        Some(Typed { ty, label })
    }
}
