//! The reader of a sheet.

use super::label::{Label, MOST_PRINCIPALS};
use super::sheet::{Location, Sheet, Type, ERROR, INT, MOST_TYPES, PACKAGE};
use super::text::Reader;
use reference::answer::Refusal;

/// Reads a text into an empty sheet: 1 and 2.
pub fn read(text: &[u8], sheet: &mut Sheet) -> Result<(), Refusal> {
    let repeats_type = read_form(text, sheet).ok_or(Refusal::SheetForm)?;
    if repeats_type || sheet.repeats_label() {
        Err(Refusal::SheetRepeats)
    } else {
        Ok(())
    }
}

/// Reads a text of the form, and tells whether a type is repeated.
fn read_form(text: &[u8], sheet: &mut Sheet) -> Option<bool> {
    let reader = &mut Reader::new(text)?;
    let principals = read_principals(reader)?;
    sheet.everyone = u16::MAX >> (MOST_PRINCIPALS - principals);
    sheet.alone = read_rule(reader)?;
    let repeats_type = read_types(reader, sheet)?;
    while reader.take(b'L') {
        reader.end_of_line()?;
        sheet.labels.push(read_label(reader, principals, sheet.everyone)?)?;
    }
    while reader.take(b'X') {
        let ty = reader.name(sheet.types.len())?;
        let label = reader.name(sheet.labels.len())?;
        reader.end_of_line()?;
        sheet.locations.push(Location { ty, label })?;
    }
    reader.is_at_end().then_some(repeats_type)
}

fn read_principals(reader: &mut Reader) -> Option<usize> {
    if !reader.take(b'P') {
        return None;
    }
    let principals = usize::from(reader.name(MOST_PRINCIPALS + 1)?);
    reader.end_of_line()?;
    (principals > 0).then_some(principals)
}

/// Whether the line `R 1` is there.
fn read_rule(reader: &mut Reader) -> Option<bool> {
    if !reader.take(b'R') {
        return Some(false);
    }
    let rule = reader.number()?;
    reader.end_of_line()?;
    (rule == 1).then_some(true)
}

/// Adds the given types, the sums and the pairs, and tells whether two sums or two pairs have the
/// same parts.
fn read_types(reader: &mut Reader, sheet: &mut Sheet) -> Option<bool> {
    let given =
        [Type::Int, Type::Error, Type::Package, Type::Sum(INT, INT), Type::Sum(PACKAGE, ERROR)];
    for ty in given {
        sheet.types.push(ty)?;
    }
    // Bit b for each sum, and for each pair, of the type and b.
    let (mut sums, mut pairs) = ([0; MOST_TYPES], [0; MOST_TYPES]);
    sums[usize::from(INT)] = 1 << INT;
    sums[usize::from(PACKAGE)] = 1 << ERROR;
    let mut repeats = false;
    loop {
        repeats |= if reader.take(b'T') {
            read_type(reader, sheet, Type::Sum, &mut sums)?
        } else if reader.take(b'Q') {
            read_type(reader, sheet, Type::Pair, &mut pairs)?
        } else {
            return Some(repeats);
        };
    }
}

/// Adds the type that a line makes of two, and tells whether its kind has made it before.
fn read_type(
    reader: &mut Reader,
    sheet: &mut Sheet,
    make: fn(u8, u8) -> Type,
    made: &mut [u32; MOST_TYPES],
) -> Option<bool> {
    let a = reader.name(sheet.types.len())?;
    let b = reader.name(sheet.types.len())?;
    reader.end_of_line()?;
    sheet.types.push(make(a, b))?;
    let made = &mut made[usize::from(a)];
    let repeats = *made >> b & 1 == 1;
    *made |= 1 << b;
    Some(repeats)
}

/// The policies of a label, owners rising.
fn read_label(reader: &mut Reader, principals: usize, everyone: u16) -> Option<Label> {
    let mut label = Label::open(everyone);
    let mut least_owner = 0;
    while reader.take(b'O') {
        let owner = usize::from(reader.name(principals)?);
        let readers = reader.set()?;
        let writers = reader.set()?;
        reader.end_of_line()?;
        if owner < least_owner || (readers | writers) & !everyone != 0 {
            return None;
        }
        label.set_policy(owner, readers, writers);
        least_owner = owner + 1;
    }
    Some(label)
}
