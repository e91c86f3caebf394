//! Evaluation of expressions: figure 2 as recursion over the rows.

use super::machine::Machine;
use super::script::Row;
use super::value::{has_type, Failure, Value, LEFT, PACKAGE, PAIR, RIGHT};
use reference::answer::Refusal;

impl Machine<'_> {
    /// The value of the expression at a row.
    pub fn evaluate(&self, at: usize, value: &mut Value) -> Result<(), Refusal> {
        match self.rows[at] {
            Row::Integer(n) => *value = Value::integer(n),
            Row::Plus { .. } => {
                let mut sum = 0;
                self.add(at, &mut sum)?;
                *value = Value::integer(sum);
            }
            Row::Location(location) => *value = self.cells[usize::from(location)],
            Row::Bound { depth } => *value = self.bound[usize::from(depth)],
            Row::Left { .. } => {
                self.evaluate(at + 1, value)?;
                value.prefix([LEFT])?;
            }
            Row::Right { .. } => {
                self.evaluate(at + 1, value)?;
                value.prefix([RIGHT])?;
            }
            Row::Pack { label } => {
                self.evaluate(at + 1, value)?;
                if self.rights.written >> label & 1 == 1 {
                    value.prefix([LEFT, PACKAGE, label.into()])?;
                } else {
                    *value = Value::failed(Failure::InsufficientAuth);
                }
            }
            Row::Unpack { ty, label } => {
                self.evaluate(at + 1, value)?;
                match self.unpack_failure(ty, label, value) {
                    Some(failure) => *value = Value::failed(failure),
                    None => {
                        value.strip::<1>();
                        value.words[0] = LEFT;
                    }
                }
            }
            Row::Pair { second, .. } => {
                self.evaluate(at + 1, value)?;
                value.prefix([PAIR])?;
                value.append(&self.apart(second.into())?)?;
            }
            Row::First => {
                self.evaluate(at + 1, value)?;
                value.keep_first();
            }
            Row::Second => {
                self.evaluate(at + 1, value)?;
                value.keep_second();
            }
            _ => unreachable!("a command stands in no expression's place"),
        }
        Ok(())
    }

    /// Adds the integer that an expression of type int is.
    fn add(&self, mut at: usize, sum: &mut u32) -> Result<(), Refusal> {
        while let Row::Plus { second } = self.rows[at] {
            self.add(at + 1, sum)?;
            at = second.into();
        }
        let integer = match self.rows[at] {
            Row::Integer(n) => n,
            Row::Location(location) => self.cells[usize::from(location)].words[1],
            Row::Bound { depth } => self.bound[usize::from(depth)].words[1],
            // a part of a pair, which may be too long
            _ => self.apart(at)?.words[1],
        };
        *sum = sum.wrapping_add(integer);
        Ok(())
    }

    /// The value of the expression at a row, apart from what is evaluated so far.
    fn apart(&self, at: usize) -> Result<Value, Refusal> {
        let mut value = Value::default();
        self.evaluate(at, &mut value)?;
        Ok(value)
    }

    /// Why a package can't be unpacked to the left of a type, at a label.
    fn unpack_failure(&self, ty: u8, label: u8, package: &Value) -> Option<Failure> {
        let labels = &self.sheet.labels;
        let (packed, wanted) = (&labels[package.words[1] as usize], &labels[usize::from(label)]);
        let (wanted_type, _) = self.sheet.parts(ty)?;
        if self.rights.read >> label & 1 == 0 {
            Some(Failure::InsufficientAuth)
        } else if !packed.at_or_below(wanted) {
            Some(Failure::IllegalFlow)
        } else if !has_type(&package.words[2..], &self.sheet.types, wanted_type) {
            Some(Failure::TypeMismatch)
        } else {
            None
        }
    }
}
