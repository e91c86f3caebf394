//! When a run stops, and which parts of an expression count, on every implementation.

use crate::common::{lefts, lines, memory, sheet, text, text_of};
use compare::implementation::ALL;
use reference::Outcome;

/// A sheet with an int, a package place and an int+int, all at a label that everyone reads and writes.
fn open_sheet() -> Vec<u8> {
    text(&["P 2", "T 0 1", "T 3 1", "L", "X 0 0", "X 4 0", "X 3 0"])
}

fn open_start() -> Vec<u32> {
    memory(&[&[1, 3], &[4, 2, 1], &[3, 1, 0]])
}

#[test]
fn every_part_of_an_expression_counts() {
    // Five packs on one another need 17 words, four 14.
    let five = ["= 1", "k 0", "k 0", "k 0", "k 0", "k 0", "i 1"];
    let four = ["= 1", "k 0", "k 0", "k 0", "k 0", "i 1"];
    let packed: &[u32] = &[3, 5, 0, 3, 5, 0, 3, 5, 0, 3, 5, 0, 1, 1];
    /// A script, an authority, the answer, the steps and what location 1 holds after it.
    type Row<'a> = (&'a [&'a str], u16, u8, u32, &'a [u32]);
    let table: &[Row] = &[
        (&five, 1, 10, 0, &[4, 2, 3]),
        (&four, 1, 0, 1, packed),
        (&five, 0, 0, 1, &[4, 2, 1]),
        (&four, 0, 0, 1, &[4, 2, 1]),
    ];
    for i in ALL {
        for (script, authority, answer, steps, location) in table {
            let mut words = memory(&[&[1, 3], &[4, 2, 3], &[3, 1, 0]]);
            let outcome = (i.run)(&open_sheet(), &text(script), &mut words, *authority, 9);
            let expected = Outcome { answer: *answer, steps: *steps };
            assert_eq!(outcome, expected, "{}: {script:?} {authority}", i.name);
            let after = memory(&[&[1, 3], location, &[3, 1, 0]]);
            assert_eq!(words, after, "{}: {script:?} {authority}", i.name);
        }
    }
}

#[test]
fn a_part_counts_where_its_value_is_not_kept() {
    // The pack fails for nobody, whatever it packs.
    for i in ALL {
        let outcome = |count| {
            let (sums, lefts) = lefts(count);
            let sheet = text_of(&[&lines(&["P 2"]), &sums, &lines(&["L", "X 4 0"])]);
            let script = text_of(&[&lines(&["= 0", "k 0"]), &lefts]);
            let mut words = memory(&[&[4, 2, 3]]);
            let outcome = (i.run)(&sheet, &script, &mut words, 0, 9);
            (outcome.answer, outcome.steps, words)
        };
        assert_eq!(outcome(14), (0, 1, memory(&[&[4, 2, 1]])), "{}", i.name);
        assert_eq!(outcome(15), (10, 0, memory(&[&[4, 2, 3]])), "{}", i.name);
    }
}

#[test]
fn ten_gives_the_steps_before_it_and_leaves_the_memory() {
    // Location 0 is written first; the memory stays as it was all the same.
    let script = text(&[";", "= 0", "i 9", "w", "l 3", "i 0", "= 1", "k 0", "x 1"]);
    // An assignment and its `;`, three steps for each pack that fits (6, 9, 12 and 15 words), the
    // guard, and the pack that needs 18.
    let stopping = 2 + 4 * 3 + 2;
    for i in ALL {
        let mut words = open_start();
        let outcome = (i.run)(&open_sheet(), &script, &mut words, 1, 4000);
        assert_eq!(outcome, Outcome { answer: 10, steps: stopping - 1 }, "{}", i.name);
        assert_eq!(words, open_start(), "{}", i.name);
        let outcome = (i.run)(&open_sheet(), &script, &mut words, 1, stopping);
        assert_eq!(outcome, Outcome { answer: 10, steps: stopping - 1 }, "{}", i.name);
        let outcome = (i.run)(&open_sheet(), &script, &mut words, 1, stopping - 1);
        assert_eq!(outcome, Outcome { answer: 9, steps: stopping - 1 }, "{}", i.name);
        assert_eq!(words, open_start(), "{}", i.name);
    }
}

#[test]
fn transitions_of_each_command() {
    let (start, one): (&[u32], &[u32]) = (&[1, 3], &[1, 1]);
    let (left, right): (&[u32], &[u32]) = (&[3, 1, 0], &[4, 1, 3]);
    /// A script, its steps, and what locations 0 and 2 hold after it.
    type Row<'a> = (&'a [&'a str], u32, &'a [u32], &'a [u32]);
    let table: &[Row] = &[
        (&["s"], 0, start, left),
        (&["= 0", "i 1"], 1, one, left),
        (&[";", "s", "= 0", "i 1"], 2, one, left),
        (&[";", "= 0", "i 1", "s"], 2, one, left),
        (&[";", "= 0", "i 2", "= 0", "i 1"], 3, one, left),
        (&[";", ";", "s", "s", "s"], 2, start, left),
        (&[";", "s", ";", "s", "s"], 2, start, left),
        (&["w", "r 3", "i 1", "= 0", "i 1"], 1, start, left),
        // left: body, `;`, then the guard is right
        (&["w", "x 2", "= 2", "r 3", "x 0"], 4, start, right),
        (&["c", "x 2", "s", "= 0", "i 1"], 1, start, left),
        (&["c", "r 3", "i 4", "s", "= 0", "v 0"], 2, &[1, 4], left),
        (&["c", "x 2", "c", "x 1", "s", "= 0", "v 1", "s"], 3, &[1, 0], left),
    ];
    for i in ALL {
        for (script, steps, integer, choice) in table {
            let mut words = open_start();
            let outcome = (i.run)(&open_sheet(), &text(script), &mut words, 1, *steps);
            assert_eq!(outcome, Outcome { answer: 0, steps: *steps }, "{}: {script:?}", i.name);
            let after = memory(&[integer, &[4, 2, 1], choice]);
            assert_eq!(words, after, "{}: {script:?}", i.name);
            if *steps > 0 {
                let mut words = open_start();
                let short = (i.run)(&open_sheet(), &text(script), &mut words, 1, steps - 1);
                assert_eq!(short, Outcome { answer: 9, steps: steps - 1 }, "{}", i.name);
                assert_eq!(words, open_start(), "{}: {script:?}", i.name);
            }
        }
    }
}

#[test]
fn a_loop_keeps_the_value_its_case_bound() {
    // The case binds location 2's integer 0; the loop's body writes it after location 2 has changed.
    let script = [
        "c", "x 2", ";", "= 2", "l 3", "i 5", "w", "x 2", ";", "= 0", "+", "v 0", "i 40", "= 2",
        "r 3", "v 0", "s",
    ];
    for i in ALL {
        let mut words = memory(&[&[1, 9], &[4, 2, 1], &[3, 1, 2]]);
        let outcome = (i.run)(&open_sheet(), &text(&script), &mut words, 1, 99);
        assert_eq!(outcome, Outcome { answer: 0, steps: 9 }, "{}", i.name);
        assert_eq!(words, memory(&[&[1, 42], &[4, 2, 1], &[4, 1, 2]]), "{}", i.name);
    }
}

#[test]
fn unpack_tests_in_its_order() {
    // Location 2 holds a package of a wrong type whose label isn't below label 1.
    let script = |u: &str| text(&["c", "x 2", "= 3", u, "v 0", "s"]);
    let with = |value: &[u32]| memory(&[&[1, 5], &[1, 62], value, &[4, 2, 1]]);
    let table: &[(&str, &[u32], u16, [u32; 3])] = &[
        ("u 5 1", &[3, 5, 2, 3, 1, 1], 2, [4, 2, 1]),
        ("u 5 1", &[3, 5, 2, 3, 1, 1], 1, [4, 2, 2]),
        ("u 5 2", &[3, 5, 2, 3, 1, 1], 1, [4, 2, 3]),
        ("u 5 2", &[3, 5, 2, 2, 3], 1, [4, 2, 3]),
        ("u 5 2", &[3, 5, 2, 1, 0], 1, [3, 1, 0]),
        ("u 5 2", &[3, 5, 0, 1, 4], 1, [3, 1, 4]),
        ("u 5 2", &[3, 5, 1, 1, 4], 1, [3, 1, 4]),
    ];
    for i in ALL {
        for (unpack, before, authority, after) in table {
            let mut words = with(before);
            let outcome = (i.run)(&sheet(), &script(unpack), &mut words, *authority, 9);
            assert_eq!(outcome, Outcome { answer: 0, steps: 2 }, "{}: {unpack}", i.name);
            let after = memory(&[&[1, 5], &[1, 62], before, after]);
            assert_eq!(words, after, "{}: {unpack} {before:?} {authority}", i.name);
        }
    }
}
