//! Scripts that open with `b`, on every implementation.

use crate::common::{
    case_count, check, contexts, lines, long, memory, sheet, start, text, text_of, without_start,
};
use crate::rounds::{joined, places, played};
use compare::generate::case::undamaged;
use compare::generate::prng::Prng;
use compare::generate::script::Wrong;
use compare::implementation::ALL;
use reference::sheet::Sheet;
use reference::{Outcome, Round, DONE};

/// A sheet of six labels. Location l is an integer at label l, location 6 + l a choice (type 3).
fn labelled() -> Vec<u8> {
    let bottom = ["L", "O 0 0007 0000", "O 1 0007 0000", "O 2 0007 0000"];
    let open = ["L"];
    let one_writer = ["L", "O 0 0000 0000"];
    let one_reader = ["L", "O 0 0000 0007"];
    let beside = ["L", "O 1 0001 0002"];
    let top = ["L", "O 0 0000 0007", "O 1 0000 0007", "O 2 0000 0007"];
    let labels = [&bottom[..], &open, &one_writer, &one_reader, &beside, &top].concat();
    let locations = |ty: usize| (0..6).map(move |label| format!("X {ty} {label}"));
    let locations: Vec<String> = locations(0).chain(locations(3)).collect();
    text_of(&[&lines(&["P 3"]), &lines(&labels), &locations])
}

/// The labels that each of them is at or below.
const ABOVE: [&[usize]; 6] = [&[0, 1, 2, 3, 4, 5], &[1, 3, 5], &[2, 3, 5], &[3, 5], &[4, 5], &[5]];

fn at_or_below(a: usize, b: usize) -> bool {
    ABOVE[a].contains(&b)
}

/// The answer where label conditions alone may fail.
fn answer(passes: bool) -> u8 {
    if passes {
        DONE
    } else {
        6
    }
}

#[test]
fn the_start_is_at_or_below_the_location() {
    let table: &[(&[&str], u8)] = &[
        (&["= 0", "i 1"], 0),
        (&["b 0", "= 0", "i 1"], 0),
        (&["b 0", "= 1", "i 1"], 0),
        (&["b 1", "= 0", "i 1"], 6),
        (&["b 1", "= 1", "i 1"], 0),
        (&["b 2", "= 0", "i 1"], 6),
        (&["b 2", "= 1", "i 1"], 0),
        (&["b 2", "= 1", "x 0"], 0),
        (&["b 0", "= 0", "x 1"], 6),
        (&["b 2", ";", "= 1", "i 1", "= 0", "i 1"], 6),
        (&["b 2", ";", "= 0", "i 1", "= 1", "i 1"], 6),
        (&["b 2", "= 2", "k 2", "x 1"], 6),
        (&["b 2", "c", "x 2", "= 3", "u 5 2", "v 0", "s"], 0),
    ];
    for (script, answer) in table {
        assert_eq!(check(&sheet(), &text(script)), *answer, "{script:?}");
    }
}

#[test]
fn the_start_holds_wherever_a_command_stands() {
    let sheet = labelled();
    for (before, after) in contexts(3) {
        for target in 0..6 {
            let assign = [format!("= {target}"), "i 1".to_string()];
            let script = [&lines(&before)[..], &assign, &lines(&after)].concat();
            assert_eq!(check(&sheet, &text_of(&[&script])), DONE, "{script:?}");
            for start in 0..6 {
                let opened = [vec![format!("b {start}")], script.clone()].concat();
                let expected = answer(at_or_below(start, target));
                assert_eq!(check(&sheet, &text_of(&[&opened])), expected, "{opened:?}");
            }
        }
    }
}

#[test]
fn the_start_holds_in_the_deepest_commands() {
    let sheet = labelled();
    let wraps: [(&[&str], &[&str], usize); 4] = [
        (&[";"], &["s"], 254),
        (&[";", "s"], &[], 254),
        (&["w", "l 3", "i 1"], &[], 169),
        (&["c", "l 3", "i 1"], &["s"], 8),
    ];
    for (open, close, count) in wraps {
        for (start, target) in (0..36).map(|pair| (pair / 6, pair % 6)) {
            let outer = [lines(&[&format!("b {start}")]), lines(&open.repeat(count))].concat();
            let assign = lines(&[&format!("= {target}"), "i 1"]);
            let script = text_of(&[&outer, &assign, &lines(&close.repeat(count))]);
            let expected = answer(at_or_below(start, target));
            assert_eq!(check(&sheet, &script), expected, "{open:?}: {start}, {target}");
        }
    }
}

#[test]
fn the_start_is_joined_with_guards_and_values() {
    let sheet = labelled();
    for (start, other, target) in (0..216).map(|i| (i / 36, i / 6 % 6, i % 6)) {
        let check = |lines: &[&str]| {
            let named = |line: &&str| {
                let (choice, integer) = (format!("x {}", 6 + other), format!("x {other}"));
                line.replace("guard", &choice).replace("value", &integer)
            };
            let lines: Vec<String> = lines.iter().map(named).collect();
            check(&sheet, &text_of(&[&[format!("b {start}")], &lines]))
        };
        let assign = &format!("= {target}");
        let (started, both) =
            (at_or_below(start, target), at_or_below(start, target) && at_or_below(other, target));
        let shown = format!("{start}, {other}, {target}");
        assert_eq!(check(&[assign, "value"]), answer(both), "{shown}");
        assert_eq!(check(&["w", "guard", assign, "i 1"]), answer(both), "{shown}");
        assert_eq!(check(&["c", "guard", assign, "i 1", "s"]), answer(both), "{shown}");
        assert_eq!(check(&["c", "guard", "s", assign, "v 0"]), answer(both), "{shown}");
        assert_eq!(check(&[";", "w", "guard", "s", assign, "i 1"]), answer(started), "{shown}");
        assert_eq!(check(&[";", assign, "i 1", "w", "guard", "s"]), answer(started), "{shown}");
    }
}

#[test]
fn what_assigns_nothing_may_start_anywhere() {
    let sheet = labelled();
    let scripts: &[(&[&str], u8)] = &[
        (&["s"], 0),
        (&[";", "s", "s"], 0),
        (&["w", "x 6", "s"], 0),
        (&["w", "x 11", "s"], 0),
        (&["c", "k 0", "i 1", "s", "s"], 0),
        (&["c", "k 0", "x 0", "c", "u 4 0", "v 0", "s", "s", "s"], 0),
        (&["c", "k 0", "x 5", "s", "s"], 6),
        (&["w", "i 1", "s"], 5),
    ];
    for (script, answer) in scripts {
        assert_eq!(check(&sheet, &text(script)), *answer, "{script:?}");
        for start in 0..6 {
            let opened = text_of(&[&[format!("b {start}")], &lines(script)]);
            assert_eq!(check(&sheet, &opened), *answer, "{start}: {script:?}");
        }
    }
}

#[test]
fn a_start_is_one_of_the_lines() {
    let rows = [(1, 0, 0), (2, 0, 0), (510, 0, 0), (511, 0, 0), (512, 0, 4), (513, 4, 4)];
    for (count, alone, opened) in rows {
        let command = long(count);
        assert_eq!(check(&sheet(), &text_of(&[&command])), alone, "{count}");
        let script = text_of(&[&lines(&["b 0"]), &command]);
        assert_eq!(check(&sheet(), &script), opened, "{count} and `b`");
    }
}

#[test]
fn the_starting_label_is_on_the_sheet() {
    for count in [0u64, 1, 2, 3, 31, 32] {
        let labels = (0..count).flat_map(|l| ["L".to_string(), format!("O 0 {:04x} 0000", l * 2)]);
        let sheet = text_of(&[&lines(&["P 16"]), &labels.collect::<Vec<String>>()]);
        for label in 0..count {
            assert_eq!(check(&sheet, &text(&[&format!("b {label}"), "s"])), 0, "{label}");
            for off in [label + 32, label + 256, label + 65_536, label + (1 << 32)] {
                assert_eq!(check(&sheet, &text(&[&format!("b {off}"), "s"])), 4, "{off}");
            }
        }
        for off in [count, count + 1, 32, 255, 4_294_967_295, 4_294_967_296] {
            assert_eq!(check(&sheet, &text(&[&format!("b {off}"), "s"])), 4, "{off} of {count}");
        }
    }
}

#[test]
fn a_start_stands_once_and_first() {
    let unformed: &[&[&str]] = &[
        &["b 0"],
        &["b"],
        &["b", "s"],
        &["b 0", "b 0", "s"],
        &["b 0", "b 1", "s"],
        &["b 0", "b 0"],
        &["s", "b 0"],
        &["s", "b 0", "s"],
        &["b 0", "s", "b 0"],
        &["b 0", "s", "s"],
        &[";", "b 0", "s", "s"],
        &[";", "s", "b 0", "s"],
        &[";", "s", "s", "b 0"],
        &[";", "b 0", "s"],
        &["b 0", ";", "b 0", "s", "s"],
        &["b 0", ";", "s", "b 0", "s"],
        &["w", "l 3", "i 1", "b 0", "s"],
        &["w", "b 0", "l 3", "i 1", "s"],
        &["c", "x 2", "b 0", "s", "s"],
        &["c", "x 2", "s", "b 0", "s"],
        &["= 0", "b 0", "i 1"],
        &["= 0", "b 0"],
        &["= 0", "+", "i 1", "b 0"],
        &["b 0", "i 1"],
        &["b 0 0", "s"],
        &["b 0", "", "s"],
        &["", "b 0", "s"],
    ];
    for script in unformed {
        assert_eq!(check(&sheet(), &text(script)), 4, "{script:?}");
    }
    assert_eq!(check(&sheet(), &text(&["b 0", "s"])), 0);
}

#[test]
fn a_start_takes_no_step() {
    let written = memory(&[&[1, 5], &[1, 7], &[4, 2, 1], &[4, 2, 1]]);
    let packs = [&["b 0", "c"][..], &["k 0"; 5], &["i 1", "s", "s"]].concat();
    type Row<'a> = (&'a [&'a str], u32, u8, u32, Vec<u32>);
    let table: &[Row] = &[
        (&["b 2", "s"], 0, 0, 0, start()),
        (&["b 2", "s"], u32::MAX, 0, 0, start()),
        (&["b 2", ";", "s", "s"], 0, 9, 0, start()),
        (&["b 2", ";", "s", "s"], 1, 0, 1, start()),
        (&["b 2", "= 1", "i 7"], 0, 9, 0, start()),
        (&["b 2", "= 1", "i 7"], 1, 0, 1, written.clone()),
        (&["b 2", ";", "= 1", "i 7", "s"], 1, 9, 1, start()),
        (&["b 2", ";", "= 1", "i 7", "s"], 2, 0, 2, written),
        (&["b 2", "w", "l 3", "i 1", "s"], 7, 9, 7, start()),
        (&packs, 0, 9, 0, start()),
        (&packs, 1, 10, 0, start()),
    ];
    for (script, budget, answer, steps, after) in table {
        for i in ALL {
            let mut words = start();
            let outcome = (i.run)(&sheet(), &text(script), &mut words, 1, *budget);
            let expected = Outcome { answer: *answer, steps: *steps };
            assert_eq!((outcome, &words), (expected, after), "{}: {script:?} {budget}", i.name);
        }
    }
}

/// A sheet, an authority, a script, the number of words lent, and the answer.
type Row<'a> = (&'a [u8], u16, &'a [&'a str], usize, u8);

#[test]
fn the_first_number_is_given_of_scripts_that_start() {
    let (good, form) = (sheet(), text(&["P 3", "T 0 9"]));
    let repeats = text(&["P 3", "L", "L", "X 0 0"]);
    let table: &[Row] = &[
        (&form, 8, &["b 9", "= 0", "x 2"], 1, 1),
        (&repeats, 8, &["b 9", "= 0", "i 1"], 1, 2),
        (&good, 8, &["b 9", "= 0", "x 2"], 1, 3),
        (&good, 8, &["b 2", "= 0", "i 1"], 1, 3),
        (&good, 1, &["b 3", "= 0", "x 2"], 1, 4),
        (&good, 1, &["b 3", "= 0", "x 1"], 1, 4),
        (&good, 1, &["b 2", "b 2", "= 0", "x 2"], 1, 4),
        (&good, 1, &["b 2"], 1, 4),
        (&good, 1, &["b 2", "= 0", "x 2"], 1, 5),
        (&good, 1, &["b 2", ";", "= 0", "i 1", "= 0", "x 2"], 1, 5),
        (&good, 1, &["b 2", "= 0", "i 1"], 1, 6),
        (&good, 1, &["b 2", "= 0", "i 1"], 64, 6),
        (&good, 1, &["b 2", "= 1", "i 1"], 1, 7),
        (&good, 1, &["b 2", "= 1", "i 1"], 64, 8),
    ];
    for (sheet, authority, script, length, answer) in table {
        for i in ALL {
            let mut lent = vec![9; *length];
            let outcome = (i.run)(sheet, &text(script), &mut lent, *authority, 9);
            let refused = Outcome { answer: *answer, steps: 0 };
            assert_eq!(outcome, refused, "{}: {script:?} {length}", i.name);
            assert_eq!(lent, vec![9; *length], "{}: {script:?}", i.name);
        }
    }
}

const HIGH: &[&str] = &["b 2", "= 1", "i 7"];
const LOW: &[&str] = &["b 0", "= 0", "i 8"];
const OFF: &[&str] = &["b 3", "s"];
const LEAK: &[&str] = &["b 2", "= 0", "i 9"];

#[test]
fn every_script_of_a_round_has_its_own_start() {
    let round = |scripts: &[&[&str]]| played(&sheet(), &joined(scripts), &start(), 1, 9);
    let left = |first, second| memory(&[&[1, first], &[1, second], &[4, 2, 1], &[4, 2, 1]]);
    let plain: &[&str] = &["= 0", "i 3"];
    let one = |count| places(&vec![0; count], &vec![1; count]);
    assert_eq!(round(&[HIGH, plain]), (one(2), left(3, 7)));
    assert_eq!(round(&[plain, HIGH, LOW]), (one(3), left(8, 7)));
    assert_eq!(round(&[HIGH; 32]), (one(32), left(5, 7)));
    let mixed: Vec<&[&str]> = [HIGH, LOW, plain, HIGH].repeat(8);
    assert_eq!(round(&mixed), (one(32), left(3, 7)));
    let refused: &[(&[&[&str]], u8)] = &[
        (&[HIGH, LEAK], 6),
        (&[LEAK, HIGH], 6),
        (&[plain, HIGH, LEAK, LOW], 6),
        (&[LEAK, &["b 2", "= 0", "x 2"]], 5),
        (&[LEAK, &["= 0", "x 2"], OFF], 4),
        (&[&["b 2"], &["= 1", "i 7"]], 4),
        (&[HIGH, &["b 2"]], 4),
        (&[HIGH, &["s", "b 2"]], 4),
        (&[&[&["b 2"], HIGH].concat(), LEAK], 4),
        (&[OFF; 33], 11),
    ];
    for (scripts, answer) in refused {
        assert_eq!(round(scripts), (Round::empty(*answer), start()), "{scripts:?}");
    }
}

#[test]
fn the_scripts_of_a_round_count_their_starts_among_their_lines() {
    let opened = |count| text_of(&[&lines(&["b 0"]), &long(count)]);
    let round = |scripts: &[Vec<u8>]| {
        let text = scripts.join(&b'\n');
        played(&sheet(), &text, &start(), 1, 999).0.answer
    };
    assert_eq!(round(&vec![opened(511); 32]), 0);
    for place in [0, 15, 31] {
        let mut scripts = vec![opened(511); 32];
        scripts[place] = opened(512);
        assert_eq!(round(&scripts), 4, "{place}");
        scripts[place] = text(&["b 0"]);
        assert_eq!(round(&scripts), 4, "{place}");
    }
}

/// A generated script without its `b` line, its sheet, and the locations that it assigns to.
struct Bare {
    text: Vec<u8>,
    sheet: Vec<u8>,
    parsed: Sheet,
    targets: Vec<usize>,
}

fn bare(seed: u64) -> Bare {
    let wrong = [Wrong::Nothing, Wrong::Nothing, Wrong::Labels, Wrong::Types][seed as usize % 4];
    let (case, parsed) = undamaged(&mut Prng::new(seed), wrong);
    let text = without_start(&case.script).unwrap_or(&case.script).to_vec();
    let target = |line: &[u8]| {
        let field = std::str::from_utf8(line.strip_prefix(b"=\t")?).expect("digits");
        Some(field.parse().expect("a location"))
    };
    let targets = text.split(|&byte| byte == b'\n').filter_map(target).collect();
    Bare { text, sheet: case.sheet, parsed, targets }
}

/// What a start asks of a script that is accepted without it: the label is at or below that of
/// every location that the script assigns to.
#[test]
fn a_start_asks_for_locations_at_or_above_it() {
    let (mut accepted, mut refused) = (0, 0);
    for seed in 0..case_count() / 4 {
        let Bare { text, sheet, parsed, targets } = bare(seed);
        let alone = check(&sheet, &text);
        let full = text.split(|&byte| byte == b'\n').count() > 512;
        for (number, label) in parsed.labels.iter().enumerate() {
            let passes = targets.iter().all(|&x| label.at_or_below(parsed.label_at(x)));
            let expected = match alone {
                _ if full => 4,
                DONE => answer(passes),
                other => other,
            };
            let opened = [format!("b\t{number}\n").as_bytes(), &text].concat();
            assert_eq!(check(&sheet, &opened), expected, "seed {seed}, label {number}");
            accepted += u64::from(expected == DONE && !targets.is_empty());
            refused += u64::from(alone == DONE && expected == 6);
        }
    }
    println!("{accepted} accepted, {refused} refused for the start alone");
    assert!(accepted * 8 > case_count() && refused * 4 > case_count(), "{accepted}, {refused}");
}

#[test]
fn a_start_changes_no_run_of_an_accepted_script() {
    let (mut compared, mut written) = (0, 0);
    for seed in 0..case_count() / 4 {
        let (case, _) = undamaged(&mut Prng::new(seed), Wrong::Nothing);
        let Some(bare) = without_start(&case.script) else {
            continue;
        };
        if check(&case.sheet, &case.script) != DONE {
            continue;
        }
        compared += 1;
        for i in ALL {
            let ran = |script: &[u8]| {
                let mut memory = case.memory.clone();
                let authority = case.authority;
                ((i.run)(&case.sheet, script, &mut memory, authority, case.budget), memory)
            };
            let (outcome, memory) = ran(&case.script);
            written += u64::from(memory != case.memory);
            assert_eq!((outcome, memory), ran(bare), "{}, seed {seed}", i.name);
        }
    }
    println!("{compared} compared, {written} written");
    assert!(compared * 4 > case_count() / 4 && written * 4 > compared, "{compared}, {written}");
}
