//! The reader of a script.

use super::script::{Row, Script, MOST_CASES};
use super::sheet::Sheet;
use super::text::Reader;

/// Reads a text that is of the form, and names what is there, into an empty script.
pub fn read(sheet: &Sheet, text: &[u8], script: &mut Script) -> Option<()> {
    let mut parser = Parser { sheet, reader: Reader::new(text)?, script };
    parser.opening()?;
    parser.command(0)?;
    parser.reader.is_at_end().then_some(())
}

struct Parser<'a> {
    sheet: &'a Sheet,
    reader: Reader<'a>,
    script: &'a mut Script,
}

impl Parser<'_> {
    /// Ends a line and adds its row. Gives the row's number.
    fn line(&mut self, row: Row) -> Option<usize> {
        self.reader.end_of_line()?;
        let at = self.script.len();
        self.script.push(row)?;
        Some(at)
    }

    /// The number of the next row.
    fn next(&self) -> u16 {
        self.script.len() as u16
    }

    /// The line before the command, where there is one.
    fn opening(&mut self) -> Option<()> {
        if self.reader.take(b'b') {
            let label = self.reader.name(self.sheet.labels.len())?;
            self.line(Row::Start { label })?;
        }
        Some(())
    }

    /// A command inside `depth` cases. A row with a link is written once its first operand is read.
    fn command(&mut self, depth: u8) -> Option<()> {
        match self.reader.byte()? {
            b's' => {
                self.line(Row::Skip)?;
            }
            b';' => {
                let at = self.line(Row::Skip)?;
                self.command(depth)?;
                self.script[at] = Row::Seq { second: self.next() };
                self.command(depth)?;
            }
            b'=' => {
                let location = self.reader.name(self.sheet.locations.len())?;
                self.line(Row::Assign { location })?;
                self.expression(depth)?;
            }
            b'w' => {
                let at = self.line(Row::Skip)?;
                self.expression(depth)?;
                self.script[at] = Row::While { body: self.next() };
                self.command(depth)?;
            }
            b'c' if usize::from(depth) < MOST_CASES => {
                let at = self.line(Row::Skip)?;
                self.expression(depth)?;
                let left = self.next();
                self.command(depth + 1)?;
                self.script[at] = Row::Case { depth, left, right: self.next() };
                self.command(depth + 1)?;
            }
            _ => return None,
        }
        Some(())
    }

    /// An expression inside `depth` cases.
    fn expression(&mut self, depth: u8) -> Option<()> {
        let (types, labels) = (self.sheet.types.len(), self.sheet.labels.len());
        let row = match self.reader.byte()? {
            b'i' => Row::Integer(self.reader.number()?),
            b'x' => Row::Location(self.reader.name(self.sheet.locations.len())?),
            b'v' => {
                let d = self.reader.name(depth.into())?;
                Row::Bound { depth: depth - 1 - d }
            }
            b'+' => Row::Plus { second: 0 },
            b'l' => Row::Left { ty: self.reader.name(types)? },
            b'r' => Row::Right { ty: self.reader.name(types)? },
            b'k' => Row::Pack { label: self.reader.name(labels)? },
            b'u' => {
                let ty = self.reader.name(types)?;
                Row::Unpack { ty, label: self.reader.name(labels)? }
            }
            b'p' => Row::Pair { ty: self.reader.name(types)?, second: 0 },
            b'f' => Row::First,
            b'g' => Row::Second,
            _ => return None,
        };
        let at = self.line(row)?;
        match row {
            Row::Integer(_) | Row::Location(_) | Row::Bound { .. } => Some(()),
            Row::Plus { .. } => {
                self.expression(depth)?;
                self.script[at] = Row::Plus { second: self.next() };
                self.expression(depth)
            }
            Row::Pair { ty, .. } => {
                self.expression(depth)?;
                self.script[at] = Row::Pair { ty, second: self.next() };
                self.expression(depth)
            }
            _ => self.expression(depth),
        }
    }
}
