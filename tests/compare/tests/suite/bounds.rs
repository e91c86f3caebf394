//! Every bound of the texts and slices, on every implementation.

use crate::common::{check, lines, long, memory, repeated, sheet, start, text, text_of};
use compare::implementation::{Implementation, ALL};
use reference::{Groups, Outcome, MOST_GROUPS};

/// The check of `s` on a sheet.
fn check_sheet(lines: &[String]) -> u8 {
    check(&text_of(&[lines]), b"s\n")
}

/// The check of a script on the sheet of the scope's cases.
fn check_script(lines: &[String]) -> u8 {
    check(&sheet(), &text_of(&[lines]))
}

#[test]
fn principals() {
    for (n, answer) in [("0", 1), ("1", 0), ("16", 0), ("17", 1), ("01", 1), ("", 1), ("65537", 1)]
    {
        assert_eq!(check_sheet(&[format!("P {n}")]), answer, "P {n}");
    }
}

#[test]
fn sums() {
    let chain = |count: usize| {
        let mut sheet = lines(&["P 1", "T 3 0"]);
        sheet.extend((5..4 + count).map(|t| format!("T {t} 0")));
        sheet
    };
    assert_eq!(check_sheet(&chain(27)), 0);
    assert_eq!(check_sheet(&chain(28)), 1);
    assert_eq!(check_sheet(&lines(&["P 1", "T 4 4"])), 0);
    assert_eq!(check_sheet(&lines(&["P 1", "T 5 0"])), 1, "a type isn't earlier than itself");
    assert_eq!(check_sheet(&lines(&["P 1", "T 0 5"])), 1);
}

#[test]
fn labels_and_locations() {
    let labels = |count: usize| {
        let mut sheet = lines(&["P 16"]);
        for label in 0..count {
            sheet.extend(["L".to_string(), format!("O 0 {:04x} 0000", label * 2)]);
        }
        sheet
    };
    assert_eq!(check_sheet(&labels(32)), 0);
    assert_eq!(check_sheet(&labels(33)), 1);
    let locations = |count| [lines(&["P 1", "L"]), repeated("X 0 0", count)].concat();
    assert_eq!(check_sheet(&locations(64)), 0);
    assert_eq!(check_sheet(&locations(65)), 1);
    assert_eq!(check_sheet(&lines(&["P 1", "X 0 0"])), 1, "there is no label 0");
    assert_eq!(check_sheet(&lines(&["P 1", "L", "X 5 0"])), 1, "there is no type 5");
    assert_eq!(check_sheet(&lines(&["P 1", "L", "X 4 1"])), 1, "there is no label 1");
}

#[test]
fn policies() {
    let owners = |owners: &[usize]| {
        let policies = owners.iter().map(|o| format!("O {o} 0000 0000"));
        [lines(&["P 3", "L"]), policies.collect()].concat()
    };
    assert_eq!(check_sheet(&owners(&[0, 1, 2])), 0);
    assert_eq!(check_sheet(&owners(&[0, 2])), 0);
    for wrong in [&[3][..], &[0, 1, 2, 3], &[1, 1], &[1, 0], &[0, 2, 1]] {
        assert_eq!(check_sheet(&owners(wrong)), 1, "{wrong:?}");
    }
    for (set, answer) in [("0007", 0), ("0008", 1), ("8000", 1), ("007", 1), ("0000f", 1)] {
        assert_eq!(check_sheet(&lines(&["P 3", "L", &format!("O 0 {set} 0000")])), answer, "{set}");
        assert_eq!(check_sheet(&lines(&["P 3", "L", &format!("O 0 0000 {set}")])), answer, "{set}");
    }
}

#[test]
fn repeats() {
    let table: &[(&[&str], u8)] = &[
        (&["P 1", "T 0 0"], 2),
        (&["P 1", "T 2 1"], 2),
        (&["P 1", "T 1 2"], 0),
        (&["P 1", "T 0 1", "T 0 1"], 2),
        (&["P 1", "L", "L"], 2),
        (&["P 2", "L", "L", "O 1 0001 0001"], 2),
        (&["P 2", "L", "O 0 0000 0000", "L", "O 0 0001 0000"], 2),
        (&["P 2", "L", "O 0 0000 0000", "L", "O 0 0000 0002"], 0),
        (&["P 2", "L", "O 0 0000 0000", "L", "O 1 0000 0000"], 0),
        (&["P 1", "T 0 0", "T 0 40"], 1),
        (&["P 1", "L", "L", "X 0 2"], 1),
    ];
    for (sheet, answer) in table {
        assert_eq!(check_sheet(&lines(sheet)), *answer, "{sheet:?}");
    }
}

#[test]
fn script_lines() {
    for (count, answer) in [(1, 0), (2, 0), (511, 0), (512, 0), (513, 4), (514, 4)] {
        assert_eq!(long(count).len(), count);
        assert_eq!(check_script(&long(count)), answer, "{count}");
    }
    assert_eq!(check(&sheet(), b""), 4);
}

/// Cases in the left, or in the right branch of one another.
fn nested(depth: usize, left: bool, inner: &str) -> Vec<String> {
    let open = ["c", "l 3", "i 0"];
    let mut script = Vec::new();
    for _ in 0..depth {
        script.extend(open);
        script.extend(if left { None } else { Some("s") });
    }
    script.extend(inner.split(", "));
    script.extend(vec!["s"; if left { depth } else { 0 }]);
    lines(&script)
}

#[test]
fn case_depth() {
    for left in [true, false] {
        assert_eq!(check_script(&nested(8, left, "s")), 0);
        assert_eq!(check_script(&nested(9, left, "s")), 4);
        assert_eq!(check_script(&nested(8, left, "= 0, v 7")), 0);
        assert_eq!(check_script(&nested(8, left, "= 0, v 8")), 4);
        assert_eq!(check_script(&nested(1, left, "= 0, v 0")), 0);
        assert_eq!(check_script(&nested(1, left, "= 0, v 1")), 4);
    }
    let beside = [lines(&[";"]), nested(8, true, "s"), nested(8, false, "s")].concat();
    assert_eq!(check_script(&beside), 0);
    assert_eq!(
        check_script(&lines(&["c", "v 0", "s", "s"])),
        4,
        "a case's expression is outside it"
    );
}

#[test]
fn script_numbers() {
    let table: &[(&[&str], u8)] = &[
        (&["= 0", "i 4294967295"], 0),
        (&["= 0", "i 4294967296"], 4),
        (&["= 0", "i 00"], 4),
        (&["= 0", "x 4"], 4),
        (&["= 4", "i 0"], 4),
        (&["= 2", "k 3", "i 0"], 4),
        (&["c", "l 5", "i 0", "s", "s"], 0),
        (&["c", "l 6", "i 0", "s", "s"], 4),
        (&["c", "r 6", "i 0", "s", "s"], 4),
        (&["c", "l 2", "i 0", "s", "s"], 5),
        (&["c", "r 0", "i 0", "s", "s"], 5),
        (&["c", "u 3 0", "x 0", "s", "s"], 5),
        (&["c", "u 5 3", "x 0", "s", "s"], 4),
        (&["c", "u 6 0", "x 0", "s", "s"], 4),
        (&["c", "x 2", "c", "u 5 2", "v 0", "s", "s", "s"], 0),
        (&["c", "x 2", "c", "u 3 2", "v 0", "s", "s", "s"], 5),
        (&["c", "x 2", "c", "u 2 2", "v 0", "s", "s", "s"], 5),
        (&["c", "x 2", "s", "c", "u 5 2", "v 0", "s", "s"], 5),
        (&["w", "x 3", "s"], 5),
        (&["w", "i 0", "s"], 5),
        (&["c", "i 0", "s", "s"], 5),
        (&["= 0", "+", "i 0", "x 2"], 5),
        (&["= 0", "+", "x 2", "i 0"], 5),
        (&["; ", "s", "s"], 4),
        (&[";", "= 0", "x 2", "= 0", "x 4"], 4),
        (&[";", "= 0", "x 1", "= 0", "x 2"], 5),
        (&[";", "= 0", "x 2", "= 0", "x 1"], 5),
    ];
    for (script, answer) in table {
        assert_eq!(check_script(&lines(script)), *answer, "{script:?}");
    }
}

#[test]
fn lengths_of_slices() {
    let script = text(&["= 0", "i 1"]);
    for i in ALL {
        for length in [0, 1, 16, 63, 65, 80, 128] {
            let mut lent = start();
            lent.resize(length, 0);
            let before = lent.clone();
            let outcome = (i.run)(&sheet(), &script, &mut lent, 1, 9);
            assert_eq!((outcome.answer, outcome.steps), (7, 0), "{}: {length}", i.name);
            assert_eq!(lent, before, "{}", i.name);
            let mut view = vec![3; 64];
            assert_eq!((i.view)(&sheet(), &lent, 1, &mut view), 7, "{}: {length}", i.name);
            assert_eq!(view, [3; 64], "{}", i.name);
            let mut view = vec![3; length];
            assert_eq!((i.view)(&sheet(), &start(), 1, &mut view), 7, "{}: {length}", i.name);
            assert_eq!(view, vec![3; length], "{}", i.name);
        }
    }
}

#[test]
fn a_sheet_without_locations() {
    for i in ALL {
        let done = Outcome { answer: 0, steps: 0 };
        assert_eq!((i.run)(b"P\t1\n", b"s\n", &mut [], 1, 0), done, "{}", i.name);
        assert_eq!((i.view)(b"P\t1\n", &[], 1, &mut []), 0, "{}", i.name);
        assert_eq!((i.view)(b"P\t1\n", &[], 2, &mut []), 3, "{}", i.name);
        let mut lent = [1; 16];
        let outcome = (i.run)(b"P\t1\n", b"s\n", &mut lent, 1, 0);
        assert_eq!((outcome, lent), (Outcome { answer: 7, steps: 0 }, [1; 16]), "{}", i.name);
    }
}

#[test]
fn memories() {
    let sheet = text(&["P 1", "T 1 2", "L", "X 0 0", "X 5 0"]);
    let good: &[&[u32]] =
        &[&[3, 2, 3], &[4, 5, 0, 1, 1], &[4, 5, 0, 4, 4, 3, 2, 1], &[4, 5, 0, 5, 0, 1]];
    let bad: &[&[u32]] = &[
        &[],
        &[1, 1],
        &[3],
        &[3, 1, 1],
        &[3, 2],
        &[3, 2, 4],
        &[4, 2, 1],
        &[4, 5, 1, 1, 1],
        &[4, 5, 0],
        &[4, 5, 0, 2, 0],
        &[4, 5, 0, 6],
        &[3, 2, 3, 0, 0, 0, 0, 0, 0, 0, 0, 0, 0, 0, 0, 1],
        &[4, 5, 0, 3, 3, 3, 3, 3, 3, 3, 3, 3, 3, 3, 3, 1],
    ];
    for (values, answer) in [(good, 0), (bad, 8)] {
        for value in values {
            let mut words = memory(&[&[1, 0], value]);
            let before = words.clone();
            for i in ALL {
                let outcome = (i.run)(&sheet, b"s\n", &mut words, 1, 9);
                assert_eq!(outcome, Outcome { answer, steps: 0 }, "{}: {value:?}", i.name);
                assert_eq!(words, before, "{}: {value:?}", i.name);
                let mut view = vec![9; 32];
                assert_eq!((i.view)(&sheet, &words, 1, &mut view), answer, "{}: {value:?}", i.name);
                // The only principal reads everything.
                let shown = if answer == 0 { before.clone() } else { vec![9; 32] };
                assert_eq!(view, shown, "{}: {value:?}", i.name);
            }
        }
    }
}

/// A call for groups on a slice of so many places, every one of which is 7.
fn groups(sheet: &[u8], label: u32, length: usize) -> Vec<(Groups, Vec<u16>)> {
    let call = |i: &Implementation| {
        let mut lent = vec![7; length];
        ((i.groups)(sheet, label, &mut lent), lent)
    };
    ALL.iter().map(call).collect()
}

fn assert_groups_refused(sheet: &[u8], label: u32, length: usize) {
    for (i, got) in ALL.iter().zip(groups(sheet, label, length)) {
        let refused = (Groups { answer: 12, count: 0 }, vec![7; length]);
        assert_eq!(got, refused, "{}: label {label}, {length} places", i.name);
    }
}

/// A sheet of so many labels: the bits of a label's number, from bit 8 on, are the readers that its
/// owner 0 lists.
fn labels_by_number(count: usize) -> Vec<u8> {
    let mut sheet = lines(&["P 16"]);
    for label in 0..count {
        sheet.extend(["L".to_string(), format!("O 0 {:04x} ffff", label << 8)]);
    }
    text_of(&[&sheet])
}

#[test]
fn labels_that_have_groups() {
    for count in [0, 1, 2, 31, 32] {
        let sheet = labels_by_number(count);
        for off in [count, count + 1, 32, 255, 256, 65_535, 65_536, 1 << 31, u32::MAX as usize] {
            assert_groups_refused(&sheet, off as u32, 16);
            assert_groups_refused(&sheet, off as u32, 0);
        }
        for label in 0..count {
            for wrapped in [label + 32, label + 256, label + 65_536, label + (1 << 31)] {
                assert_groups_refused(&sheet, wrapped as u32, 16);
            }
            // each reader of owner 0 alone, since the other owners let everyone read
            let readers = (0..16).filter(|p| (label << 8 | 1) >> p & 1 == 1);
            let mut expected: Vec<u16> = readers.map(|p| 1 << p).collect();
            let listed = Groups::listed(expected.len() as u32);
            expected.resize(16, 7);
            for (i, got) in ALL.iter().zip(groups(&sheet, label as u32, 16)) {
                assert_eq!(got, (listed, expected.clone()), "{}: label {label}", i.name);
            }
        }
    }
}

#[test]
fn places_for_groups() {
    let sheet = text(&["P 4", "L"]);
    for length in 0..4 {
        assert_groups_refused(&sheet, 0, length);
    }
    for length in [4, 5, 16, 255, 256, 257, MOST_GROUPS, 65_535, 65_536, 65_537, 1 << 20] {
        let mut expected = vec![7; length];
        expected[..4].copy_from_slice(&[1, 2, 4, 8]);
        for (i, got) in ALL.iter().zip(groups(&sheet, 0, length)) {
            assert_eq!(got, (Groups::listed(4), expected.clone()), "{}: {length}", i.name);
        }
    }
}
