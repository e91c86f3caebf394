//! What a distrusted group can't write stays out of its reach: two done runs of an accepted,
//! trust-keeping script, from memories that are alike in what the group doesn't write, leave memories
//! that are. So do two rounds of such scripts that are all done. On generated cases, under both rules
//! of reading, on every implementation; and what a script that isn't trust-keeping lets the group do.

use crate::common::{case_count, memory, round_count, text, ENDORSING, KEEPING};
use crate::twice::{Shown, Twice};
use compare::generate::alike::tampered;
use compare::generate::prng::Prng;
use compare::generate::round::RoundCase;
use compare::generate::trust::{self, Endorsed};
use compare::implementation::{Implementation, ALL};
use reference::calls::read_sheet;
use reference::label::Label;
use reference::memory::decode;
use reference::principals::Principals;
use reference::round_text::Part;
use reference::sheet::Sheet;
use reference::{parts, view, Outcome, DONE};

/// What is left of a memory where a group is distrusted.
fn left_for(sheet: &Sheet, group: u16, words: &[u32]) -> Vec<u32> {
    let memory = decode(sheet, words).expect("a well-formed memory");
    view::left(sheet, &memory, Principals::from_bits(group))
}

fn left(twice: &Twice, words: &[u32]) -> Vec<u32> {
    left_for(&twice.sheet, twice.case.group, words)
}

/// A group that writes some label of the sheet and not another, where there is one.
fn distrusted(prng: &mut Prng, sheet: &Sheet) -> u16 {
    let everyone = u16::MAX >> (16 - sheet.principals);
    let mut group = 0;
    for _ in 0..8 {
        group = prng.draw() as u16 & everyone;
        let writes = |label: &&Label| label.written_by(Principals::from_bits(group));
        let written = sheet.labels.iter().filter(writes).count();
        if 0 < written && written < sheet.labels.len() {
            break;
        }
    }
    group
}

/// A call that was made, from two memories of which a distrusted group may have made one of the
/// other.
fn pair(seed: u64, made: impl FnOnce(&mut Prng) -> (RoundCase, Sheet)) -> Option<Twice> {
    let prng = &mut Prng::new(seed);
    let (mut case, sheet) = made(prng);
    case.group = distrusted(prng, &sheet);
    Twice::new(seed, prng, case, sheet, tampered)
}

/// The same of one script.
fn run_pair(seed: u64, endorsed: Endorsed) -> Option<Twice> {
    pair(seed, |prng| {
        let (case, sheet) = trust::undamaged(prng, endorsed);
        (case.into(), sheet)
    })
}

/// That pairs weren't empty: most are compared, and among these many differ in what the group
/// writes, write, and change what is left.
fn assert_shown(i: &Implementation, shown: &Shown, calls: u64) {
    println!("{}: {shown:?}", i.name);
    let Shown { pairs, compared, .. } = *shown;
    assert!(pairs * 3 > calls && compared * 2 > pairs, "{}: {shown:?}", i.name);
    assert!(shown.differ * 2 > compared && shown.written * 3 > compared, "{}: {shown:?}", i.name);
    assert!(shown.changed * 10 > compared, "{}: {shown:?}", i.name);
    assert!(shown.stepped * 100 > compared, "{}: {shown:?}", i.name);
    assert!(shown.started * 40 > compared, "{}: {shown:?}", i.name);
    assert!(shown.paired * 10 > compared, "{}: {shown:?}", i.name);
    assert!(shown.changed_by_pairs * 30 > compared, "{}: {shown:?}", i.name);
    shown.assert_rules();
}

#[test]
fn what_is_left_follows_from_what_was_left() {
    let calls = case_count() / 2;
    for i in ALL {
        let mut shown = Shown::default();
        for seed in 0..calls {
            // scripts in which any operand will do are trust-keeping at times
            let endorsed = if seed % 4 == 0 { Endorsed::Any } else { Endorsed::None };
            let Some(twice) = run_pair(seed, endorsed) else {
                continue;
            };
            if (i.trust)(&twice.case.sheet, &twice.case.scripts) == KEEPING {
                shown.count(&twice, twice.runs(i), |words| left(&twice, words));
            }
        }
        assert_shown(i, &shown, calls);
    }
}

#[test]
fn what_is_left_after_a_round_follows_from_what_was_left() {
    let calls = round_count() / 2;
    for i in ALL {
        let mut shown = Shown::default();
        for seed in 0..calls {
            let Some(twice) = pair(seed, trust::undamaged_round) else {
                continue;
            };
            let keeps = |script: &Part| (i.trust)(&twice.case.sheet, script.text) == KEEPING;
            assert!(parts(&twice.case.scripts).iter().all(keeps), "{}, seed {seed}", i.name);
            shown.count(&twice, twice.rounds(i), |words| left(&twice, words));
        }
        assert_shown(i, &shown, calls);
        assert!(shown.several * 2 > shown.compared, "{}: {shown:?}", i.name);
    }
}

/// The promise isn't empty: one unpack that isn't trust-keeping is enough for the group to change
/// what it doesn't write.
#[test]
fn scripts_that_are_not_trust_keeping_let_the_group_in() {
    let calls = case_count() / 2;
    for i in ALL {
        let (mut compared, mut reached) = (0, 0);
        for seed in 0..calls {
            let Some(twice) = run_pair(seed, Endorsed::One) else {
                continue;
            };
            if (i.trust)(&twice.case.sheet, &twice.case.scripts) != ENDORSING {
                continue;
            }
            if let Some([(first, _), (other, _)]) = twice.runs(i) {
                compared += 1;
                reached += u64::from(left(&twice, &first) != left(&twice, &other));
            }
        }
        println!("{}: {reached} of {compared} let the group in", i.name);
        assert!(compared * 4 > calls && reached * 100 > compared, "{reached} of {compared}");
    }
}

/// Everyone writes label 0, and owner 0 lets itself alone write label 1. Principal 1 is distrusted:
/// it writes location 0, a package, and location 2, but not location 1, an unpacked integer.
#[test]
fn a_package_put_in_the_place_of_another() {
    let sheet =
        text(&["P 2", "T 0 1", "L", "L", "O 0 0003 0000", "X 2 0", "X 5 1", "X 5 0", "X 2 1"]);
    let parsed = read_sheet(&sheet).expect("a sheet");
    let kept: &[u32] = &[5, 1, 1, 9];
    let of =
        |package: &[u32], opened: &[u32], other: &[u32]| memory(&[package, opened, other, kept]);
    let start = |package: &[u32]| of(package, &[4, 2, 3], &[4, 2, 3]);
    let left = |words: &[u32]| left_for(&parsed, 0b10, words);
    // the package that was there, an older one of the same label, and one of the group's own
    let packages: [(&[u32], &[u32], &[u32]); 3] = [
        (&[5, 1, 1, 62], &[3, 1, 62], &[3, 1, 62]),
        (&[5, 1, 1, 7], &[3, 1, 7], &[3, 1, 7]),
        (&[5, 0, 1, 7], &[4, 2, 2], &[3, 1, 7]),
    ];
    let (endorsing, keeping) = (text(&["= 1", "u 5 1", "x 0"]), text(&["= 2", "u 5 0", "x 0"]));
    for i in ALL {
        assert_eq!((i.trust)(&sheet, &endorsing), ENDORSING, "{}", i.name);
        assert_eq!((i.trust)(&sheet, &keeping), KEEPING, "{}", i.name);
        for (package, trusted, other) in packages {
            assert_eq!(left(&start(package)), memory(&[&[], &[4, 2, 3], &[], kept]));
            let ran = |script: &[u8]| {
                let mut words = start(package);
                let outcome = (i.run)(&sheet, script, &mut words, 0b11, 1);
                assert_eq!(outcome, Outcome { answer: DONE, steps: 1 }, "{}", i.name);
                words
            };
            let reached = ran(&endorsing);
            assert_eq!(reached, of(package, trusted, &[4, 2, 3]), "{}", i.name);
            assert_eq!(left(&reached), memory(&[&[], trusted, &[], kept]));
            let unreached = ran(&keeping);
            assert_eq!(unreached, of(package, &[4, 2, 3], other), "{}", i.name);
            assert_eq!(left(&unreached), left(&start(package)));
        }
    }
}
