//! What is seen of a memory by the labels that are seen: a group's view has those that it reads, and
//! where a group is distrusted those are left that it doesn't write.

use crate::memory::Memory;
use crate::principals::Principals;
use crate::sheet::{LabelId, Sheet};
use crate::value::{padded, Error, Value};

/// A value with the contents taken away whose labels aren't seen.
#[derive(Clone, Debug, PartialEq, Eq)]
enum Seen {
    Hidden,
    Integer(u32),
    Error(Error),
    Left(Box<Seen>),
    Right(Box<Seen>),
    Package(LabelId, Box<Seen>),
    Pair(Box<Seen>, Box<Seen>),
}

impl Seen {
    fn of(sees: &dyn Fn(LabelId) -> bool, value: &Value) -> Seen {
        let inner = |value: &Value| Box::new(Seen::of(sees, value));
        match value {
            Value::Integer(n) => Seen::Integer(*n),
            Value::Error(error) => Seen::Error(*error),
            Value::Left(value) => Seen::Left(inner(value)),
            Value::Right(value) => Seen::Right(inner(value)),
            Value::Package(label, content) if sees(*label) => Seen::Package(*label, inner(content)),
            Value::Package(label, _) => Seen::Package(*label, Box::new(Seen::Hidden)),
            Value::Pair(first, second) => Seen::Pair(inner(first), inner(second)),
        }
    }

    /// What is hidden is one zero word, and what comes next follows it.
    fn words(&self) -> Vec<u32> {
        let after = |start: &[u32], seen: &Seen| [start, &seen.words()].concat();
        match self {
            Seen::Hidden => vec![0],
            Seen::Integer(n) => vec![1, *n],
            Seen::Error(error) => vec![2, *error as u32],
            Seen::Left(seen) => after(&[3], seen),
            Seen::Right(seen) => after(&[4], seen),
            Seen::Package(label, seen) => after(&[5, *label as u32], seen),
            Seen::Pair(first, second) => [&[6], &first.words()[..], &second.words()].concat(),
        }
    }
}

/// The words of a memory's view for a group, 16 for each location.
pub fn words(sheet: &Sheet, memory: &Memory, group: Principals) -> Vec<u32> {
    seen(sheet, memory, |label| sheet.reads(group, label))
}

/// The words that are left of a memory where a group is distrusted: without the locations and the
/// contents of packages whose labels the group writes.
pub fn left(sheet: &Sheet, memory: &Memory, distrusted: Principals) -> Vec<u32> {
    seen(sheet, memory, |label| !sheet.labels[label].written_by(distrusted))
}

/// The words of what is seen of a memory: a location whose label isn't seen is 16 zero words, and
/// the content of a package whose label isn't seen is one.
pub fn seen(sheet: &Sheet, memory: &Memory, sees: impl Fn(LabelId) -> bool) -> Vec<u32> {
    let locations = sheet.locations.iter().zip(memory).map(|(location, value)| {
        if sees(location.label) {
            Seen::of(&sees, value)
        } else {
            Seen::Hidden
        }
    });
    locations.flat_map(|seen| padded(seen.words())).collect()
}

#[cfg(test)]
mod tests {
    use super::{left, words};
    use crate::memory::Memory;
    use crate::principals::Principals;
    use crate::sheet_text;
    use crate::value::{padded, Value};

    /// Principal 0 alone reads and writes label 1, and every principal label 0; principal 1 reads
    /// label 2 and writes label 3 by itself too.
    const SHEET: &[u8] = b"P\t2\nL\nL\nO\t0\t0000\t0000\nL\nO\t0\t0003\t0000\n\
        L\nO\t0\t0000\t0003\nX\t2\t0\nX\t2\t1\nX\t2\t2\nX\t2\t3\n";

    fn package(label: usize, content: Value) -> Value {
        Value::Package(label, Box::new(content))
    }

    fn blanked(words: &[&[u32]]) -> Vec<u32> {
        words.iter().flat_map(|words| padded(words.to_vec())).collect()
    }

    /// Each location holds a package under its own label, of a package of label 1, 3, 2 and 3.
    fn memory() -> Memory {
        let nested = |(label, inside)| package(label, package(inside, Value::Integer(9)));
        [(0, 1), (1, 3), (2, 2), (3, 3)].map(nested).to_vec()
    }

    #[test]
    fn a_view_has_what_the_group_reads_and_what_is_left_what_it_does_not_write() {
        let sheet = sheet_text::parse(SHEET).expect("a sheet");
        let group = Principals::from_bits;
        let all: [&[u32]; 4] =
            [&[5, 0, 5, 1, 1, 9], &[5, 1, 5, 3, 1, 9], &[5, 2, 5, 2, 1, 9], &[5, 3, 5, 3, 1, 9]];
        let one = group(0b10);
        let seen: [&[u32]; 4] = [&[5, 0, 5, 1, 0], &[], all[2], &[]];
        assert_eq!(words(&sheet, &memory(), one), blanked(&seen));
        let trusted: [&[u32]; 4] = [&[], &[5, 1, 5, 3, 0], all[2], &[]];
        assert_eq!(left(&sheet, &memory(), one), blanked(&trusted));

        assert_eq!(left(&sheet, &memory(), group(0)), blanked(&all));
        assert_eq!(words(&sheet, &memory(), group(0)), [0; 64]);
        assert_eq!(left(&sheet, &memory(), group(0b01)), [0; 64]);
        assert_eq!(words(&sheet, &memory(), group(0b01)), blanked(&all));
    }

    /// Principal 0 alone reads label 1, and it alone writes label 2. The locations hold a package
    /// beside an integer.
    const PAIRS: &[u8] = b"P\t2\nQ\t2\t0\nL\nL\nO\t0\t0000\t0003\nL\nO\t0\t0003\t0000\n\
        X\t5\t0\nX\t5\t2\nX\t5\t2\n";

    #[test]
    fn the_second_part_follows_a_hidden_content() {
        let sheet = sheet_text::parse(PAIRS).expect("a sheet");
        let pair = |first, second| Value::Pair(Box::new(first), Box::new(second));
        let content = || pair(Value::Integer(7), Value::Integer(8));
        let held = |label| pair(package(label, content()), Value::Integer(9));
        let memory = [1, 1, 2].map(held).to_vec();
        let (hidden, shown) = ([6, 5, 1, 0, 1, 9], [6, 5, 2, 6, 1, 7, 1, 8, 1, 9]);
        let one = Principals::from_bits(0b10);
        assert_eq!(words(&sheet, &memory, one), blanked(&[&hidden, &hidden, &shown]));
        assert_eq!(left(&sheet, &memory, one), blanked(&[&[], &hidden, &shown]));
    }

    /// Principal 2 reads for owner 0 and principal 3 for owner 1; all write. Location 0 has the
    /// label that all read, location 1 the label of the two.
    fn readers_apart(rule: &str) -> Vec<u8> {
        format!("P\t4\n{rule}L\nL\nO\t0\t0004\t000f\nO\t1\t0008\t000f\nX\t2\t0\nX\t2\t1\n").into()
    }

    #[test]
    fn with_the_rule_two_readers_do_not_pool() {
        let memory = vec![
            package(0, package(1, package(0, Value::Integer(9)))),
            package(1, Value::Integer(9)),
        ];
        let all: [&[u32]; 2] = [&[5, 0, 5, 1, 5, 0, 1, 9], &[5, 1, 1, 9]];
        let hidden: [&[u32]; 2] = [&[5, 0, 5, 1, 0], &[]];
        let (two, nobody) = (Principals::from_bits(0b1100), Principals::from_bits(0));
        for (rule, seen) in [("", &all), ("R\t1\n", &hidden)] {
            let sheet = sheet_text::parse(&readers_apart(rule)).expect("a sheet");
            assert_eq!(words(&sheet, &memory, two), blanked(seen), "{rule}");
            assert_eq!(words(&sheet, &memory, nobody), [0; 32], "{rule}");
            assert_eq!(left(&sheet, &memory, two), [0; 32], "{rule}");
            assert_eq!(left(&sheet, &memory, nobody), blanked(&all), "{rule}");
        }
    }
}
