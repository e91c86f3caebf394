//! Rounds, on every implementation.

use crate::common::{lines, memory, round_count, sheet, start, text, text_of};
use crate::fenced::Fenced;
use compare::generate::round::{round_case, RoundCase};
use compare::implementation::{Implementation, ALL, TESTED};
use reference::round::{Place, Refused};
use reference::{check, parts, try_check, try_round, Round, DONE, SCRIPTS};
use std::collections::BTreeSet;

/// Adds 1 to location 0, in one step.
const TALLY: &[&str] = &["= 0", "+", "x 0", "i 1"];
const UNFORMED: &[&str] = &["q"];
const SHAPELESS: &[&str] = &["= 0", "x 2"];
const FLOWLESS: &[&str] = &["= 0", "x 1"];

/// The text of scripts, an empty line between each two.
pub fn joined(scripts: &[&[&str]]) -> Vec<u8> {
    scripts.iter().map(|lines| text(lines)).collect::<Vec<Vec<u8>>>().join(&b'\n')
}

/// A round on a sheet and the memory it leaves, the same from every implementation.
pub fn played(
    sheet: &[u8],
    scripts: &[u8],
    memory: &[u32],
    authority: u16,
    budget: u32,
) -> (Round, Vec<u32>) {
    let mut results = ALL.iter().map(|i| {
        let mut lent = Fenced::new(memory);
        let round = (i.round)(sheet, scripts, lent.words_mut(), authority, budget);
        assert!(lent.is_intact(), "{}: written beside the memory", i.name);
        (i.name, (round, lent.words().to_vec()))
    });
    let (first, result) = results.next().expect("an implementation");
    for (name, other) in results {
        assert_eq!(other, result, "{name}, then {first}: {}", scripts.escape_ascii());
    }
    result
}

/// A round of the scope's sheet and memory.
fn round(scripts: &[u8], authority: u16, budget: u32) -> (Round, Vec<u32>) {
    played(&sheet(), scripts, &start(), authority, budget)
}

fn assert_refused(scripts: &[u8], answer: u8) {
    let shown = scripts.escape_ascii().to_string();
    assert_eq!(round(scripts, 1, 9), (Round::empty(answer), start()), "{shown}");
}

/// A round that isn't refused.
pub fn places(answers: &[u8], steps: &[u32]) -> Round {
    let mut round = Round::empty(DONE);
    round.answers[..answers.len()].copy_from_slice(answers);
    round.steps[..steps.len()].copy_from_slice(steps);
    round
}

/// The memory of the scope's cases with another integer at location 0.
fn with_first(integer: u32) -> Vec<u32> {
    memory(&[&[1, integer], &[1, 62], &[4, 2, 1], &[4, 2, 1]])
}

#[test]
fn a_round_has_one_to_thirty_two_scripts() {
    for count in 1..=SCRIPTS {
        let left = with_first(5 + count as u32);
        let done = places(&vec![0; count], &vec![1; count]);
        assert_eq!(round(&joined(&vec![TALLY; count]), 1, 9), (done, left), "{count}");
    }
    for count in [33, 34, 64, 65, 256, 257, 5000] {
        assert_refused(&joined(&vec![TALLY; count]), 11);
    }
}

#[test]
fn scripts_hand_on_the_memory() {
    let scripts: &[&[&str]] = &[&["= 2", "k 2", "x 1"], &["c", "x 2", "= 3", "u 5 2", "v 0", "s"]];
    let unpacked = memory(&[&[1, 5], &[1, 62], &[3, 5, 2, 1, 62], &[3, 1, 62]]);
    assert_eq!(round(&joined(scripts), 1, 9), (places(&[0, 0], &[1, 2]), unpacked));
    assert_eq!(round(&joined(scripts), 0, 9), (places(&[0, 0], &[1, 1]), start()));
}

#[test]
fn an_empty_line_parts_and_an_empty_script_is_four() {
    let texts: &[&[u8]] = &[
        b"",
        b"\n",
        b"\n\n",
        b"s\n\n",
        b"\ns\n",
        b"s\n\n\ns\n",
        b"s\n\ns\n\n",
        b"\ns\n\ns\n",
        b"s",
        b"s\n\ns",
        b"s\n\n\n",
    ];
    for text in texts {
        assert_refused(text, 4);
    }
    for byte in [b'\t', b' ', b'\r', 0] {
        for text in [&[b's', 10, byte, 10, b's', 10][..], &[byte, 10], &[b's', 10, 10, byte, 10]] {
            assert_refused(text, 4);
        }
    }
    let scripts = |count| joined(&vec![TALLY; count]);
    let (before, after) = (
        |count| [b"\n", &scripts(count)[..]].concat(),
        |count| [&scripts(count)[..], b"\n"].concat(),
    );
    for (count, answer) in [(1, 4), (31, 4), (32, 11)] {
        assert_refused(&before(count), answer);
        assert_refused(&after(count), answer);
    }
}

#[test]
fn scripts_are_counted_by_empty_lines_alone() {
    for (empty_lines, answer) in [(30, 4), (31, 4), (32, 11), (33, 11), (20_000, 11)] {
        assert_refused(&vec![b'\n'; empty_lines], answer);
    }
    for bad in [UNFORMED, SHAPELESS, FLOWLESS, &["s", "\t"], &["\t"]] {
        assert_refused(&joined(&vec![bad; 33]), 11);
    }
    let filled = |parting: &[u8]| vec![&b"s\n"[..]; 33].join(parting);
    assert_refused(&filled(b"\t\n"), 4);
    assert_refused(&filled(b""), 4);
}

#[test]
fn the_lowest_number_of_all_scripts_refuses() {
    let scripts = [UNFORMED, SHAPELESS, FLOWLESS, TALLY];
    let number = |script: usize| if script == 3 { DONE } else { script as u8 + 4 };
    for (a, b, c) in (0..64).map(|i| (i / 16, i / 4 % 4, i % 4)) {
        let text = joined(&[scripts[a], scripts[b], scripts[c]]);
        match [a, b, c].map(number).into_iter().filter(|&number| number != DONE).min() {
            Some(lowest) => assert_refused(&text, lowest),
            None => assert_eq!(round(&text, 1, 9), (places(&[0; 3], &[1; 3]), with_first(8))),
        }
    }
    assert_refused(&joined(&[FLOWLESS, TALLY, TALLY, TALLY, TALLY, UNFORMED]), 4);
}

#[test]
fn one_bad_script_in_each_place_refuses() {
    for place in 0..SCRIPTS {
        for (bad, answer) in [(UNFORMED, 4), (&[][..], 4), (SHAPELESS, 5), (FLOWLESS, 6)] {
            let mut scripts = vec![TALLY; SCRIPTS];
            scripts[place] = bad;
            assert_refused(&joined(&scripts), answer);
        }
    }
}

#[test]
fn a_script_that_stops_leaves_what_the_one_before_it_left() {
    let endless: &[&str] = &[";", "= 0", "i 70", "w", "l 3", "i 0", "s"];
    let packs = ["k 2"; 5];
    let long = [&[";", "= 0", "i 80", "= 2"][..], &packs, &["i 1"]].concat();
    /// Scripts, a budget, and the answers and steps.
    type Row<'a> = (&'a [&'a [&'a str]], u32, &'a [u8], &'a [u32]);
    let table: &[Row] = &[
        (&[TALLY, endless, TALLY], 7, &[0, 9, 0], &[1, 7, 1]),
        (&[TALLY, &long, TALLY], 6, &[0, 10, 0], &[1, 2, 1]),
        (&[endless, &long, TALLY, &long, endless], 8, &[9, 10, 0, 10, 9], &[8, 2, 1, 2, 8]),
        (&[endless, &long], 9, &[9, 10], &[9, 2]),
        (&[TALLY, &long, endless], 1, &[0, 9, 9], &[1, 1, 1]),
        (&[TALLY, &long, &["s"]], 0, &[9, 9, 0], &[0, 0, 0]),
    ];
    for (scripts, budget, answers, steps) in table {
        let tallies = scripts.iter().zip(*answers).filter(|(s, a)| **s == TALLY && **a == DONE);
        let left = with_first(5 + tallies.count() as u32);
        let played = round(&joined(scripts), 1, *budget);
        assert_eq!(played, (places(answers, steps), left), "{scripts:?} {budget}");
    }
}

#[test]
fn every_script_has_the_whole_budget() {
    let text = joined(&[&[";", "s", "s"][..]; SCRIPTS]);
    assert_eq!(round(&text, 1, 1), (places(&[0; 32], &[1; 32]), start()));
    assert_eq!(round(&text, 1, u32::MAX), (places(&[0; 32], &[1; 32]), start()));
    assert_eq!(round(&text, 1, 0), (places(&[9; 32], &[0; 32]), start()));
    let endless = joined(&[&["w", "l 3", "i 0", "s"][..]; SCRIPTS]);
    assert_eq!(round(&endless, 1, 300), (places(&[9; 32], &[300; 32]), start()));
}

/// A script of 512 lines, half of them as long as a line can be.
fn longest() -> Vec<u8> {
    let (sums, integers) = (vec!["+".to_string(); 255], vec!["i 4294967295".to_string(); 256]);
    text_of(&[&lines(&["= 0"]), &sums, &integers])
}

#[test]
fn the_byte_limit_is_for_each_script() {
    let text = vec![longest(); SCRIPTS].join(&b'\n');
    assert_eq!((longest().len(), text.len()), (3842, 122_975));
    let left = with_first(0u32.wrapping_sub(256));
    assert_eq!(round(&text, 1, 1), (places(&[0; 32], &[1; 32]), left.clone()));
    let at_the_limit = vec![b"s\n".repeat(8192); 2].join(&b'\n');
    assert_refused(&at_the_limit, 4);
    for place in [0, 15, 31] {
        for length in [16_384, 16_385, 16_386, 70_000] {
            let mut scripts = vec![longest(); SCRIPTS];
            scripts[place] = vec![b's'; length - 1];
            scripts[place].push(b'\n');
            assert_refused(&scripts.join(&b'\n'), 4);
        }
        let mut scripts = vec![longest(); SCRIPTS];
        scripts[place].extend(b"s\n");
        assert_refused(&scripts.join(&b'\n'), 4);
    }
}

/// A sheet, an authority, scripts, the number of words lent, a budget, and the answer.
type Row<'a> = (&'a [u8], u16, &'a [u8], usize, u32, u8);

#[test]
fn the_first_number_is_given_by_a_round() {
    let (good, form) = (sheet(), text(&["P 3", "T 0 9"]));
    let repeats = text(&["P 3", "L", "L", "X 0 0"]);
    let many = joined(&[UNFORMED; 33]);
    let unformed = joined(&[FLOWLESS, SHAPELESS, UNFORMED]);
    let (shapeless, flowless) = (joined(&[FLOWLESS, SHAPELESS, TALLY]), joined(&[TALLY, FLOWLESS]));
    let scripts = joined(&[TALLY, TALLY]);
    let table: &[Row] = &[
        (&form, 8, &many, 1, 9, 1),
        (&repeats, 8, &many, 1, 9, 2),
        (&good, 8, &many, 1, 9, 3),
        (&good, 1, &many, 1, 9, 11),
        (&good, 1, &unformed, 1, 9, 4),
        (&good, 1, b"", 1, 9, 4),
        (&good, 1, &shapeless, 1, 9, 5),
        (&good, 1, &flowless, 1, 9, 6),
        (&good, 1, &scripts, 1, 9, 7),
        (&good, 1, &scripts, 0, 9, 7),
        (&good, 1, &scripts, 64, 9, 8),
        (&good, 1, &scripts, 64, 0, 8),
    ];
    for (sheet, authority, scripts, length, budget, answer) in table {
        let lent = vec![9; *length];
        let played = played(sheet, scripts, &lent, *authority, *budget);
        assert_eq!(played, (Round::empty(*answer), lent), "{answer}");
    }
}

/// What a round hands back, by a check and a run of each of its scripts.
fn by_its_runs(i: &Implementation, case: &RoundCase, memory: &mut [u32]) -> Round {
    let RoundCase { sheet, authority, budget, .. } = case;
    let scripts = parts(&case.scripts);
    // an unformed script is refused after the sheet and the authority, before the memory
    let refused_first = (i.run)(sheet, b"q\n", memory, *authority, 0).answer;
    if refused_first < 4 {
        return Round::empty(refused_first);
    }
    if scripts.len() > SCRIPTS {
        return Round::empty(11);
    }
    let checks = scripts.iter().map(|script| (i.check)(sheet, script.text));
    if let Some(lowest) = checks.filter(|&answer| answer != DONE).min() {
        return Round::empty(lowest);
    }
    // a skip is refused by the memory alone
    let mut round = Round::empty((i.run)(sheet, b"s\n", memory, *authority, 0).answer);
    if round.answer == DONE {
        for (place, script) in scripts.iter().enumerate() {
            let outcome = (i.run)(sheet, script.text, memory, *authority, *budget);
            (round.answers[place], round.steps[place]) = (outcome.answer, outcome.steps);
        }
    }
    round
}

#[test]
fn a_round_is_what_its_runs_are() {
    for seed in 0..round_count() {
        let case = round_case(seed);
        let (mut whole, mut apart) = (case.memory.clone(), case.memory.clone());
        let round =
            (TESTED.round)(&case.sheet, &case.scripts, &mut whole, case.authority, case.budget);
        assert_eq!(round, by_its_runs(&TESTED, &case, &mut apart), "seed {seed}");
        assert_eq!(whole, apart, "seed {seed}");
    }
}

#[test]
fn a_refusal_names_the_first_script_of_its_number() {
    let mut named = BTreeSet::new();
    for seed in 0..round_count() {
        let RoundCase { sheet, scripts, mut memory, authority, budget, .. } = round_case(seed);
        let refused = try_round(&sheet, &scripts, &mut memory, authority, budget).err();
        let Some(Refused { script, reason }) = refused else {
            continue;
        };
        let number = reason.number();
        assert_eq!(script.is_some(), (4..=6).contains(&number), "seed {seed}: {reason:?}");
        if let Some(Place { number: place, first_line }) = script {
            let parts = parts(&scripts);
            assert_eq!(first_line.get(), parts[place].first_line, "seed {seed}");
            assert_eq!(try_check(&sheet, parts[place].text), Err(reason), "seed {seed}");
            let before = parts[..place].iter().map(|part| check(&sheet, part.text));
            assert!(before.into_iter().all(|a| a == DONE || a > number), "seed {seed}");
            named.insert(place);
        }
    }
    println!("scripts named: {named:?}");
    assert!(named.len() > SCRIPTS / 2, "{named:?}");
}
