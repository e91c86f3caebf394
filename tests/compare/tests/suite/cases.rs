//! The cases of the scope, on every implementation.

use crate::common::{lefts, lines, memory, sheet, start, text, text_of};
use compare::implementation::{Implementation, ALL};
use reference::Outcome;

/// An outcome and the memory after it.
fn run(
    i: &Implementation,
    sheet: &[u8],
    script: &[&str],
    mut memory: Vec<u32>,
    authority: u16,
    budget: u32,
) -> (Outcome, Vec<u32>) {
    let outcome = (i.run)(sheet, &text(script), &mut memory, authority, budget);
    (outcome, memory)
}

fn done(steps: u32) -> Outcome {
    Outcome { answer: 0, steps }
}

fn spent(budget: u32) -> Outcome {
    Outcome { answer: 9, steps: budget }
}

/// Whether a group reads label 0 of a sheet: then its view shows both locations, and else neither.
fn reads(i: &Implementation, sheet: &[u8], group: u16) -> bool {
    let before = memory(&[&[1, 5], &[4, 2, 1]]);
    let mut view = vec![7; 32];
    assert_eq!((i.view)(sheet, &before, group, &mut view), 0, "{}", i.name);
    let shown = view == before;
    assert!(shown || view == [0; 32], "{}: {view:?}", i.name);
    shown
}

/// Whether an authority writes label 0 of a sheet: then a pack succeeds, and else it leaves error 1.
fn writes(i: &Implementation, sheet: &[u8], authority: u16) -> bool {
    let (outcome, after) =
        run(i, sheet, &["= 1", "k 0", "i 9"], memory(&[&[1, 5], &[4, 2, 3]]), authority, 1);
    assert_eq!(outcome, done(1), "{}", i.name);
    let packed = after == memory(&[&[1, 5], &[3, 5, 0, 1, 9]]);
    assert!(packed || after == memory(&[&[1, 5], &[4, 2, 1]]), "{}: {after:?}", i.name);
    packed
}

/// A sheet with one label, an integer and a place for a package, both at that label.
fn one_label(policies: &[&str]) -> Vec<u8> {
    text(&[&["P 4", "L"], policies, &["X 0 0", "X 4 0"]].concat())
}

#[test]
fn who_reads_and_writes_a_label() {
    // {0: readers 1, writers 2; 1: readers 0, writers 2 and 3}
    let sheet = one_label(&["O 0 0002 0004", "O 1 0001 000c"]);
    for i in ALL {
        let reads = |group| reads(i, &sheet, group);
        let writes = |group| writes(i, &sheet, group);
        assert!(reads(0b0001) && !writes(0b0001), "{}: {{0}}", i.name);
        assert!(!reads(0b1000) && !writes(0b1000), "{}: {{3}}", i.name);
        assert!(reads(0b1001) && writes(0b1001), "{}: {{0,3}}", i.name);
        assert!(!reads(0) && !writes(0), "{}: nobody", i.name);
    }
}

#[test]
fn principals_pool_what_they_may_read() {
    // {0: 2; 1: 3}, readers only listed
    let sheet = one_label(&["O 0 0004 0000", "O 1 0008 0000"]);
    for i in ALL {
        assert!(reads(i, &sheet, 0b1100), "{}: {{2,3}}", i.name);
        assert!(!reads(i, &sheet, 0b0100) && !reads(i, &sheet, 0b1000), "{}: alone", i.name);
    }
}

#[test]
fn checks() {
    let table: &[(&[&str], u8)] = &[
        (&["= 0", "x 1"], 6),
        (&["= 1", "x 0"], 0),
        (&["= 0", "x 2"], 5),
        (&["= 2", "k 2", "x 1"], 0),
        (&["= 2", "k 1", "x 1"], 6),
        (&["c", "x 2", "= 3", "u 5 2", "v 0", "s"], 0),
        (&["c", "x 2", "= 3", "u 5 1", "v 0", "s"], 0),
    ];
    for i in ALL {
        for (script, answer) in table {
            assert_eq!((i.check)(&sheet(), &text(script)), *answer, "{}: {script:?}", i.name);
        }
    }
}

#[test]
fn packs() {
    let script = ["= 2", "k 2", "x 1"];
    for i in ALL {
        let packed = memory(&[&[1, 5], &[1, 62], &[3, 5, 2, 1, 62], &[4, 2, 1]]);
        assert_eq!(run(i, &sheet(), &script, start(), 2, 100), (done(1), packed), "{}", i.name);
        let other_error = memory(&[&[1, 5], &[1, 62], &[4, 2, 3], &[4, 2, 1]]);
        for before in [start(), other_error] {
            let nobody = run(i, &sheet(), &script, before, 0, 100);
            assert_eq!(nobody, (done(1), start()), "{}: location 2 is 4 2 1", i.name);
        }
    }
}

#[test]
fn unpacks_after_a_pack() {
    // Location 3 starts as what no row leaves there.
    let before = memory(&[&[1, 5], &[1, 62], &[3, 5, 2, 1, 62], &[4, 2, 3]]);
    let table: &[(&str, u16, &[u32])] = &[
        ("u 5 2", 0b001, &[3, 1, 62]),
        ("u 5 2", 0b010, &[4, 2, 1]),
        ("u 5 1", 0b001, &[4, 2, 2]),
    ];
    for i in ALL {
        for (unpack, authority, location) in table {
            let script = ["c", "x 2", "= 3", unpack, "v 0", "s"];
            let after = memory(&[&[1, 5], &[1, 62], &[3, 5, 2, 1, 62], location]);
            let ran = run(i, &sheet(), &script, before.clone(), *authority, 100);
            assert_eq!(ran, (done(2), after), "{}: {unpack} {authority}", i.name);
        }
    }
}

#[test]
fn budgets() {
    let forever = ["w", "l 3", "i 1", "s"];
    for i in ALL {
        let outcome = |script: &[&str], budget| {
            let (outcome, after) = run(i, &sheet(), script, start(), 1, budget);
            assert_eq!(after, start(), "{}", i.name);
            outcome
        };
        assert_eq!(outcome(&["s"], 0), done(0), "{}", i.name);
        assert_eq!(outcome(&["s"], u32::MAX), done(0), "{}", i.name);
        assert_eq!(outcome(&[";", "s", "s"], 0), spent(0), "{}", i.name);
        assert_eq!(outcome(&[";", "s", "s"], 1), done(1), "{}", i.name);
        assert_eq!(outcome(&[";", "s", "s"], u32::MAX), done(1), "{}", i.name);
        for budget in [0, 1, 2, 3, 10, 1001, 100_000] {
            assert_eq!(outcome(&forever, budget), spent(budget), "{}", i.name);
        }
    }
}

#[test]
fn sums_wrap() {
    for i in ALL {
        let script = ["= 0", "+", "i 4294967295", "i 1"];
        let after = memory(&[&[1, 0], &[1, 62], &[4, 2, 1], &[4, 2, 1]]);
        assert_eq!(run(i, &sheet(), &script, start(), 1, 1), (done(1), after), "{}", i.name);
    }
}

#[test]
fn fourteen_lefts_fit_and_fifteen_do_not() {
    for i in ALL {
        let outcome = |count, budget| {
            let (sums, lefts) = lefts(count);
            let sheet = text_of(&[&lines(&["P 1"]), &sums]);
            let script = text_of(&[&lines(&["c"]), &lefts, &lines(&["s", "s"])]);
            (i.run)(&sheet, &script, &mut [], 0, budget)
        };
        assert_eq!(outcome(14, 5), done(1), "{}", i.name);
        assert_eq!(outcome(15, 5), Outcome { answer: 10, steps: 0 }, "{}", i.name);
        assert_eq!(outcome(15, 0), spent(0), "{}: no step is within the budget", i.name);
    }
}
