//! The reader of a sheet.

use crate::label::{Label, Policy, Reading};
use crate::principals;
use crate::sheet::{LabelId, Location, Sheet};
use crate::text::{fields, lines, name, number, set, Cause, Counted, Expected, Fault, Thing};
use crate::types::{given, Type, TypeId};

/// The most lines that make types, `T` and `Q` together, and of each other kind.
const MOST_TYPES: usize = 27;
const MOST_LABELS: usize = 32;
pub const MOST_LOCATIONS: usize = 64;

type Line<'a> = Vec<&'a [u8]>;

/// The lines, and how many of them are read.
struct Rest<'a> {
    lines: Vec<Line<'a>>,
    read: usize,
}

impl<'a> Rest<'a> {
    /// Reads the next line if its first field is `kind`, and gives its `count` other fields.
    fn take<const COUNT: usize>(
        &mut self,
        kind: &[u8],
    ) -> Result<Option<[&'a [u8]; COUNT]>, Cause> {
        let Some(line) = self.lines.get(self.read).filter(|line| line[0] == kind) else {
            return Ok(None);
        };
        self.read += 1;
        let found = line.len() - 1;
        let other = |_| Cause::FieldCount { kind: kind.to_vec(), wanted: COUNT, found };
        line[1..].try_into().map(Some).map_err(other)
    }

    /// That a line of one of the expected kinds should stand next.
    fn expected(&mut self, kinds: &'static [&'static str]) -> Cause {
        let next = self.lines.get(self.read).map(|line| line[0].to_vec());
        self.read += 1;
        match next {
            None => Cause::NoLines,
            Some(found) if found.is_empty() => Cause::EmptyLine,
            Some(found) => Cause::LineKind { found, expected: Expected::Sheet(kinds) },
        }
    }
}

/// A sheet is one `P`, then `R 1` or not, `T` and `Q` lines, labels and `X` lines, in this order.
pub fn parse(text: &[u8]) -> Result<Sheet, Fault> {
    let lines = lines(text)?.into_iter().map(fields).collect();
    let mut rest = Rest { lines, read: 0 };
    // the line read last is the one at fault
    parse_lines(&mut rest).map_err(|cause| cause.at(rest.read))
}

fn parse_lines(rest: &mut Rest) -> Result<Sheet, Cause> {
    let principals = parse_principals(rest)?;
    let reading = parse_reading(rest)?;
    let types = parse_types(rest)?;
    let labels = parse_labels(rest, principals)?;
    let locations = parse_locations(rest, types.len(), labels.len())?;
    if rest.read == rest.lines.len() {
        return Ok(Sheet { principals, reading, types, labels, locations });
    }
    let only_principals = rest.read == 1;
    Err(rest.expected(match (labels.is_empty(), locations.is_empty()) {
        (_, false) => &["X"],
        (false, true) => &["O", "L", "X"],
        (true, true) if only_principals => &["R", "T", "Q", "L", "X"],
        (true, true) => &["T", "Q", "L", "X"],
    }))
}

fn parse_principals(rest: &mut Rest) -> Result<usize, Cause> {
    let Some([count]) = rest.take(b"P")? else {
        return Err(rest.expected(&["P"]));
    };
    let count = number(count)? as usize;
    if (1..=principals::MOST).contains(&count) {
        Ok(count)
    } else {
        Err(Cause::PrincipalCount(count))
    }
}

/// `R 1` says that a reader reads by himself; no other `R` line says anything.
fn parse_reading(rest: &mut Rest) -> Result<Reading, Cause> {
    match rest.take(b"R")? {
        None => Ok(Reading::Pooled),
        Some([b"1"]) => Ok(Reading::Alone),
        Some([found]) => Err(Cause::ReadingRule { found: found.to_vec() }),
    }
}

/// `T` makes the sum of two earlier types and `Q` the pair, in any order.
fn parse_types(rest: &mut Rest) -> Result<Vec<Type>, Cause> {
    let mut types = given();
    let given = types.len();
    while let Some(made) = parse_type(rest, types.len())? {
        types.push(made);
        within(types.len() - given, Counted::TypeLines, MOST_TYPES)?;
    }
    Ok(types)
}

/// The type that the next line makes of two of the `earlier` ones, if it makes one.
fn parse_type(rest: &mut Rest, earlier: usize) -> Result<Option<Type>, Cause> {
    let part = |field| name(field, earlier, Thing::EarlierType);
    if let Some([left, right]) = rest.take(b"T")? {
        Ok(Some(Type::Sum(part(left)?, part(right)?)))
    } else if let Some([first, second]) = rest.take(b"Q")? {
        Ok(Some(Type::Pair(part(first)?, part(second)?)))
    } else {
        Ok(None)
    }
}

fn parse_labels(rest: &mut Rest, n: usize) -> Result<Vec<Label>, Cause> {
    let mut labels = Vec::new();
    while let Some([]) = rest.take(b"L")? {
        within(labels.len() + 1, Counted::Labels, MOST_LABELS)?;
        let policies = parse_policies(rest, n)?;
        labels.push(Label::of_policies(n, &policies));
    }
    Ok(labels)
}

/// Owners rise, so there are at most n policies.
fn parse_policies(rest: &mut Rest, n: usize) -> Result<Vec<Policy>, Cause> {
    let mut policies: Vec<Policy> = Vec::new();
    while let Some([owner, readers, writers]) = rest.take(b"O")? {
        let owner = name(owner, n, Thing::Principal)?;
        if let Some(last) = policies.last().filter(|last| last.owner >= owner) {
            return Err(Cause::OwnerOrder { owner, before: last.owner });
        }
        policies.push(Policy { owner, readers: set(readers, n)?, writers: set(writers, n)? });
    }
    Ok(policies)
}

fn parse_locations(rest: &mut Rest, types: usize, labels: usize) -> Result<Vec<Location>, Cause> {
    let mut locations = Vec::new();
    while let Some([ty, label]) = rest.take(b"X")? {
        let ty = name(ty, types, Thing::Type)?;
        let label = name(label, labels, Thing::Label)?;
        locations.push(Location { ty, label });
        within(locations.len(), Counted::Locations, MOST_LOCATIONS)?;
    }
    Ok(locations)
}

fn within(count: usize, what: Counted, most: usize) -> Result<(), Cause> {
    if count <= most {
        Ok(())
    } else {
        Err(Cause::TooMany { what, most })
    }
}

/// The line of a type that `T` or `Q` makes: those lines follow `P`, and `R 1` where it stands.
pub fn line_of_type(sheet: &Sheet, ty: TypeId) -> usize {
    let first = match sheet.reading {
        Reading::Pooled => 2,
        Reading::Alone => 3,
    };
    first + ty - given().len()
}

/// The line that a label of a sheet starts with.
pub fn line_of_label(text: &[u8], label: LabelId) -> usize {
    let lines = text.split(|&byte| byte == b'\n').enumerate();
    let mut labels = lines.filter(|(_, line)| *line == b"L");
    let (before, _) = labels.nth(label).expect("the label is on the sheet");
    before + 1
}

#[cfg(test)]
mod tests {
    use super::parse;
    use crate::calls::read_sheet;
    use crate::label::Reading;
    use crate::reason::Reason;
    use crate::sheet::Repeat;
    use crate::text::{Cause, Counted, Expected, Thing};
    use crate::types::Type;

    /// A sheet of one principal and these lines, written with blanks and commas.
    fn sheet(lines: &str) -> Vec<u8> {
        ("P 1,".to_string() + lines).replace(' ', "\t").replace(',', "\n").into_bytes()
    }

    #[test]
    fn sums_and_pairs_are_numbered_together() {
        let types = parse(&sheet("Q 0 1,T 5 2,Q 6 5,T 7 7,")).expect("a sheet").types;
        assert_eq!(
            types[5..],
            [Type::Pair(0, 1), Type::Sum(5, 2), Type::Pair(6, 5), Type::Sum(7, 7)]
        );
        let later = Cause::Missing { thing: Thing::EarlierType, number: 6, count: 6 };
        assert_eq!(parse(&sheet("T 0 1,Q 6 0,")), Err(later.at(3)));
        let many = Cause::TooMany { what: Counted::TypeLines, most: 27 };
        let chain = |count: usize| {
            let kind = |t: usize| if t.is_multiple_of(2) { 'T' } else { 'Q' };
            (5..5 + count).map(|t| format!("{} {} 0,", kind(t), t - 1)).collect::<String>()
        };
        assert_eq!(parse(&sheet(&chain(27))).map(|sheet| sheet.types.len()), Ok(32));
        assert_eq!(parse(&sheet(&chain(28))), Err(many.at(29)));
        let expected = Expected::Sheet(&["O", "L", "X"]);
        let late = Cause::LineKind { found: b"Q".to_vec(), expected };
        assert_eq!(parse(&sheet("L,Q 0 1,")), Err(late.at(3)));
    }

    #[test]
    fn a_type_repeats_one_of_its_own_kind() {
        for good in ["Q 0 0,", "Q 2 1,", "T 0 1,Q 0 1,", "Q 0 1,T 0 1,Q 1 0,T 1 0,"] {
            assert!(read_sheet(&sheet(good)).is_ok(), "{good}");
        }
        let type_at = |line, first, again| {
            Err(Reason::Repeats { line, repeat: Repeat::Type { first, again } })
        };
        assert_eq!(read_sheet(&sheet("Q 0 1,T 0 1,Q 0 1,")), type_at(4, 5, 7));
        assert_eq!(read_sheet(&sheet("T 0 1,Q 0 1,T 0 1,")), type_at(4, 5, 7));
        assert_eq!(read_sheet(&sheet("Q 0 0,T 0 0,")), type_at(3, 3, 6));
    }

    #[test]
    fn only_a_line_of_one_after_the_principals_says_who_reads() {
        let reading = |lines: &str| parse(&sheet(lines)).map(|sheet| sheet.reading);
        for pooled in ["", "T 0 1,", "L,", "L,X 0 0,"] {
            assert_eq!(reading(pooled), Ok(Reading::Pooled), "{pooled}");
            assert_eq!(reading(&format!("R 1,{pooled}")), Ok(Reading::Alone), "{pooled}");
        }
        for field in ["0", "2", "01", "10", "+1", "one", "0001"] {
            let other = Cause::ReadingRule { found: field.into() };
            assert_eq!(reading(&format!("R {field},")), Err(other.at(2)), "{field}");
        }
        for (line, found) in [("R,", 0), ("R 1 1,", 2), ("R 0 0 0,", 3)] {
            let fields = Cause::FieldCount { kind: b"R".to_vec(), wanted: 1, found };
            assert_eq!(reading(line), Err(fields.at(2)), "{line}");
        }
    }

    #[test]
    fn a_rule_of_reading_stands_nowhere_else() {
        let misplaced = |found: &str, expected| Cause::LineKind {
            found: found.into(),
            expected: Expected::Sheet(expected),
        };
        let types = &["T", "Q", "L", "X"];
        let labels = &["O", "L", "X"];
        for (lines, line, expected) in [
            ("R 1,R 1,", 3, &types[..]),
            ("T 0 1,R 1,", 3, types),
            ("R 1,Q 0 1,R 1,", 4, types),
            ("L,R 1,", 3, labels),
            ("L,O 0 0000 0000,R 1,", 4, labels),
            ("L,X 0 0,R 1,", 4, &["X"]),
        ] {
            assert_eq!(parse(&sheet(lines)), Err(misplaced("R", expected).at(line)), "{lines}");
        }
        assert_eq!(parse(b"R\t1\nP\t1\n"), Err(misplaced("R", &["P"]).at(1)));
        let first = &["R", "T", "Q", "L", "X"];
        assert_eq!(parse(&sheet("r 1,")), Err(misplaced("r", first).at(2)));
        assert_eq!(parse(&sheet("R 1,r 1,")), Err(misplaced("r", types).at(3)));
        assert_eq!(parse(b"P\t1\nR 1\n"), Err(Cause::Blank.at(2)));
    }

    #[test]
    fn the_line_of_a_repeat_counts_the_rule_of_reading() {
        let repeated = |lines, line, repeat| {
            assert_eq!(read_sheet(&sheet(lines)), Err(Reason::Repeats { line, repeat }));
        };
        repeated("T 0 0,", 2, Repeat::Type { first: 3, again: 5 });
        repeated("R 1,T 0 0,", 3, Repeat::Type { first: 3, again: 5 });
        repeated("R 1,Q 0 1,T 0 1,Q 0 1,", 5, Repeat::Type { first: 5, again: 7 });
        repeated("R 1,T 0 1,L,L,", 5, Repeat::Label { first: 0, again: 1 });
    }
}
