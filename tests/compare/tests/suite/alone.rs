//! One reader by himself: on a sheet with the line `R 1` a group reads a label if one of its
//! members is an effective reader for every owner. On every implementation, beside the pooled rule.

use crate::common::{
    case_count, memory, other, text, text_of, trust_count, under, untrusted, RULES,
};
use crate::fenced::Fenced;
use crate::groups::{assert_groups, reads};
use compare::generate::case::case;
use compare::generate::prng::Prng;
use compare::generate::trust::trust_case;
use compare::implementation::{Implementation, ALL, TESTED};
use reference::label::Reading;
use reference::memory::decode;
use reference::principals::Principals;
use reference::{sheet_text, view, Groups, Outcome, Round, DONE};

/// The sheet of a label whose readers, and writers, are apart: principal 2 for owner 0, and
/// principal 3 for owner 1. Label 0 is everyone's. Type 5 is int+error and type 6 pkg*int.
const LINES: [&str; 13] = [
    "P 4",
    "T 0 1",
    "Q 2 0",
    "L",
    "L",
    "O 0 0004 0004",
    "O 1 0008 0008",
    "X 2 0",
    "X 5 1",
    "X 4 0",
    "X 0 1",
    "X 6 0",
    "X 6 1",
];
const START: [&[u32]; 6] = [
    &[5, 1, 1, 62],
    &[4, 2, 3],
    &[4, 2, 3],
    &[1, 5],
    &[6, 5, 1, 5, 0, 1, 9, 1, 8],
    &[6, 5, 0, 1, 9, 1, 8],
];

fn readers_apart(rule: Reading) -> Vec<u8> {
    under(rule, &text(&LINES))
}

/// The groups of four principals that hold one of {0, 2} and one of {1, 3}: those that together
/// read and write label 1. None of their members does by himself.
fn pools(group: u16) -> bool {
    group & 0b0101 != 0 && group & 0b1010 != 0
}

fn reads_apart(rule: Reading, group: u16) -> bool {
    rule == Reading::Pooled && pools(group)
}

/// The memory that a done script of one step leaves, the same from every implementation.
fn left(sheet: &[u8], script: &[&str], start: &[u32], authority: u16) -> Vec<u32> {
    let left = ALL.iter().map(|i| {
        let mut memory = start.to_vec();
        let outcome = (i.run)(sheet, &text(script), &mut memory, authority, 1);
        assert_eq!(outcome, Outcome { answer: DONE, steps: 1 }, "{}: {script:?}", i.name);
        memory
    });
    let left: Vec<Vec<u32>> = left.collect();
    assert!(left.iter().all(|memory| *memory == left[0]), "{script:?}: {left:?}");
    left[0].clone()
}

/// A view that isn't refused, the same from every implementation.
fn seen(sheet: &[u8], words: &[u32], group: u16) -> Vec<u32> {
    let seen = ALL.iter().map(|i| {
        let mut view = vec![7; words.len()];
        assert_eq!((i.view)(sheet, words, group, &mut view), DONE, "{}", i.name);
        view
    });
    let seen: Vec<Vec<u32>> = seen.collect();
    assert!(seen.iter().all(|view| *view == seen[0]), "group {group:04x}: {seen:?}");
    seen[0].clone()
}

/// Every call answers 1 on the sheet and leaves its slices.
fn assert_unformed(i: &Implementation, sheet: &[u8]) {
    let shown = format!("{}: {}", i.name, sheet.escape_ascii());
    assert_eq!((i.check)(sheet, b"s\n"), 1, "{shown}");
    assert_eq!((i.trust)(sheet, b"s\n"), untrusted(1), "{shown}");
    let mut words = Fenced::blank(16);
    let outcome = (i.run)(sheet, b"s\n", words.words_mut(), 1, 9);
    assert_eq!(outcome, Outcome { answer: 1, steps: 0 }, "{shown}");
    let round = (i.round)(sheet, b"s\n\ns\n", words.words_mut(), 1, 9);
    assert_eq!(round, Round::empty(1), "{shown}");
    assert_eq!((i.view)(sheet, &[0; 16], 1, words.words_mut()), 1, "{shown}");
    assert_eq!(words.words(), Fenced::<u32>::blank(16).words(), "{shown}");
    let mut places = [7; 4];
    let groups = (i.groups)(sheet, 0, &mut places);
    assert_eq!((groups, places), (Groups { answer: 1, count: 0 }, [7; 4]), "{shown}");
}

/// The line is `R 1`, and no other opens with `R`.
#[test]
fn any_other_line_is_refused() {
    let good: &[u8] = b"P\t4\nR\t1\nL\nX\t0\t0\n";
    let others: [&[u8]; 20] = [
        b"R\t0",
        b"R\t2",
        b"R\t01",
        b"R\t10",
        b"R\t11",
        b"R\t+1",
        b"R\t-1",
        b"R\t1.0",
        b"R",
        b"R\t",
        b"R\t1\t",
        b"R\t1\t1",
        b"R\t\t1",
        b"R 1",
        b"R\t 1",
        b"R1",
        b"r\t1",
        b"RR\t1",
        b"R\t4294967297",
        b"R\t1\r",
    ];
    for i in ALL {
        assert_eq!((i.check)(good, b"s\n"), DONE, "{}", i.name);
        for other in others {
            let sheet = [b"P\t4\n", other, b"\nL\nX\t0\t0\n"].concat();
            assert_unformed(i, &sheet);
            assert_unformed(i, &[b"P\t4\n", other, b"\n"].concat());
        }
        assert_unformed(i, b"P\t4\nR\t1");
    }
}

/// It stands right after `P`, and once.
#[test]
fn the_line_stands_in_one_place() {
    let lines = ["P 4", "T 0 1", "Q 0 1", "L", "O 0 0001 0000", "L", "X 0 0", "X 2 1"];
    for place in 0..=lines.len() {
        let mut with = lines.to_vec();
        with.insert(place, "R 1");
        let mut again = with.clone();
        again.insert(1, "R 1");
        for i in ALL {
            if place == 1 {
                assert_eq!((i.check)(&text(&with), b"s\n"), DONE, "{}", i.name);
            } else {
                assert_unformed(i, &text(&with));
            }
            assert_unformed(i, &text(&again));
        }
    }
    for i in ALL {
        assert_eq!((i.check)(&text(&["P 1", "R 1"]), b"s\n"), DONE, "{}", i.name);
        assert_unformed(i, &text(&["R 1"]));
    }
}

/// The line counts for none of the others.
#[test]
fn the_other_lines_keep_their_counts() {
    let answers = |rest: Vec<String>| {
        let sheet = under(Reading::Alone, &text_of(&[&["P 16".to_string()], &rest]));
        ALL.iter().map(|i| (i.check)(&sheet, b"s\n")).collect::<Vec<u8>>()
    };
    let types = |count: usize| (0..count).map(|t| format!("T {} 0", t + 4)).collect();
    let label = |l: usize| ["L".to_string(), format!("O 0 {:04x} 0000", 2 * l)];
    let labels = |count: usize| (0..count).flat_map(label).collect();
    let locations = |count: usize| [vec!["L".to_string()], vec!["X 0 0".to_string(); count]];
    for (answer, more) in [(DONE, 0), (1, 1)] {
        let all = vec![answer; ALL.len()];
        assert_eq!(answers(types(27 + more)), all);
        assert_eq!(answers(labels(32 + more)), all);
        assert_eq!(answers(locations(64 + more).concat()), all);
    }
}

/// The sheet of the rule is judged as any: what repeats is 2, and an unformed line is 1 before it.
#[test]
fn the_other_numbers_follow_as_without_the_line() {
    let sheets: [(&[&str], u8); 5] = [
        (&["P 2", "R 1", "T 0 0"], 2),
        (&["P 2", "R 1", "L", "L"], 2),
        (&["P 2", "R 1", "L", "L", "X 9 0"], 1),
        (&["P 2", "R 2", "L", "L"], 1),
        (&["P 0", "R 1"], 1),
    ];
    for (lines, answer) in sheets {
        for i in ALL {
            assert_eq!((i.check)(&text(lines), b""), answer, "{}: {lines:?}", i.name);
            let groups = (i.groups)(&text(lines), 9, &mut []);
            assert_eq!(groups, Groups { answer, count: 0 }, "{}: {lines:?}", i.name);
        }
    }
    let alone = readers_apart(Reading::Alone);
    for i in ALL {
        let outcome = (i.run)(&alone, b"", &mut [], 0b10000, 0);
        assert_eq!(outcome, Outcome { answer: 3, steps: 0 }, "{}", i.name);
        assert_eq!((i.view)(&alone, &[], 0b0001, &mut []), 7, "{}", i.name);
        assert_eq!((i.check)(&alone, &text(&["= 0", "x 9"])), 4, "{}", i.name);
        assert_eq!((i.check)(&alone, &text(&["= 0", "x 3"])), 5, "{}", i.name);
        assert_eq!((i.check)(&alone, &text(&["= 4", "x 5"])), 6, "{}", i.name);
    }
}

#[test]
fn two_readers_pool_in_a_view_only_without_the_line() {
    let words = memory(&START);
    let hidden: [&[u32]; 6] = [&[5, 1], &[], &[4, 2, 3], &[], &[6, 5, 1, 0, 1, 8], &[]];
    for rule in RULES {
        for group in 1..16 {
            let expected = if reads_apart(rule, group) { words.clone() } else { memory(&hidden) };
            let shown = seen(&readers_apart(rule), &words, group);
            assert_eq!(shown, expected, "{rule:?}, group {group:04x}");
        }
    }
}

#[test]
fn two_readers_pool_in_an_unpack_only_without_the_line() {
    let start = memory(&START);
    for rule in RULES {
        for authority in 0..16 {
            let mut expected = START;
            let read = reads_apart(rule, authority);
            expected[1] = if read { &[3, 1, 62] } else { &[4, 2, 1] };
            let left = left(&readers_apart(rule), &["= 1", "u 5 1", "x 0"], &start, authority);
            assert_eq!(left, memory(&expected), "{rule:?}, authority {authority:04x}");
        }
    }
}

/// The authority is asked first, also where the flow or the type would fail.
#[test]
fn who_does_not_read_alone_gets_the_first_error() {
    let lines = ["P 4", "T 0 1", "L", "O 0 0004 0000", "O 1 0008 0000"];
    let more = ["L", "O 0 0000 0000", "O 1 0000 0000", "L", "X 2 2", "X 5 0"];
    let sheet = text(&[&lines[..], &more].concat());
    // the package's label isn't at or below the wanted one, and then its content is no integer
    for (package, error) in [(&[5, 1, 1, 62], 2), (&[5, 0, 2, 1], 3)] {
        for (rule, error) in RULES.into_iter().zip([error, 1]) {
            let start = memory(&[package, &[3, 1, 0]]);
            let left = left(&under(rule, &sheet), &["= 1", "u 5 0", "x 0"], &start, 0b1100);
            assert_eq!(left, memory(&[package, &[4, 2, error]]), "{rule:?}");
        }
    }
}

#[test]
fn two_readers_pool_in_the_smallest_groups_only_without_the_line() {
    let pooled = readers_apart(Reading::Pooled);
    assert_groups(&pooled, 1, &[0b0011, 0b0110, 0b1001, 0b1100]);
    let alone = readers_apart(Reading::Alone);
    assert_groups(&alone, 1, &[]);
    assert_groups(&alone, 0, &[1, 2, 4, 8]);
    for i in ALL {
        let groups = (i.groups)(&alone, 1, &mut []);
        assert_eq!(groups, Groups { answer: DONE, count: 0 }, "{}", i.name);
        let unknown = (i.groups)(&alone, 2, &mut [7; 9]);
        assert_eq!(unknown, Groups { answer: 12, count: 0 }, "{}", i.name);
    }
}

/// One who reads for some owners only isn't enough, and one who does for all is, with any others.
#[test]
fn the_single_readers_of_many() {
    for n in 2..=16usize {
        let everyone = u16::MAX >> (16 - n);
        for reader in 0..n {
            // the reader for all owners but one, where its owner lets nobody else
            for keeps in (0..n).filter(|&keeps| keeps != reader) {
                let lines = |all: bool| {
                    let owners = (0..n).map(|owner| {
                        let lets = all || owner != keeps;
                        format!("O {owner} {:04x} 0000", if lets { 1 << reader } else { 0 })
                    });
                    let head = vec![format!("P {n}"), "R 1".to_string(), "L".to_string()];
                    text_of(&[&head, &owners.collect::<Vec<String>>(), &["X 0 0".to_string()]])
                };
                assert_groups(&lines(true), 0, &[1 << reader]);
                assert_groups(&lines(false), 0, &[]);
                let words = memory(&[&[1, 7]]);
                assert_eq!(seen(&lines(true), &words, everyone), words);
                assert_eq!(seen(&lines(true), &words, everyone & !(1 << reader)), [0; 16]);
                assert_eq!(seen(&lines(false), &words, everyone), [0; 16]);
            }
        }
    }
}

/// The empty group has no member who reads, under either rule.
#[test]
fn the_empty_group_reads_nothing() {
    for rule in RULES {
        let sheet = readers_apart(rule);
        assert_eq!(seen(&sheet, &memory(&START), 0), [0; 96], "{rule:?}");
        // label 0 is everyone's
        let open = text(&["P 4", "T 0 1", "L", "X 2 0", "X 5 0"]);
        let start = memory(&[&[5, 0, 1, 62], &[3, 1, 0]]);
        let unpack = ["= 1", "u 5 0", "x 0"];
        let left = |authority| left(&under(rule, &open), &unpack, &start, authority);
        assert_eq!(left(0), memory(&[&[5, 0, 1, 62], &[4, 2, 1]]), "{rule:?}");
        assert_eq!(left(0b0100), memory(&[&[5, 0, 1, 62], &[3, 1, 62]]), "{rule:?}");
    }
}

/// Members pool to pack, with the line and without.
#[test]
fn writing_is_pooled_under_both_rules() {
    let start = memory(&START);
    for rule in RULES {
        for authority in 0..16 {
            let mut expected = START;
            expected[2] = if pools(authority) { &[3, 5, 1, 1, 7] } else { &[4, 2, 1] };
            let left = left(&readers_apart(rule), &["= 2", "k 1", "i 7"], &start, authority);
            assert_eq!(left, memory(&expected), "{rule:?}, authority {authority:04x}");
        }
    }
}

/// What is left of a memory where a group is distrusted doesn't turn on the rule.
#[test]
fn what_is_left_is_the_same_under_both_rules() {
    let left = |rule: Reading, group: u16| {
        let sheet = sheet_text::parse(&readers_apart(rule)).expect("a sheet");
        let memory = decode(&sheet, &memory(&START)).expect("a memory");
        view::left(&sheet, &memory, Principals::from_bits(group))
    };
    // a group of one member or more writes label 0, so that it alone is left of no location
    let kept: [&[u32]; 6] = [&[], START[1], &[], START[3], &[], &[6, 5, 0, 0, 1, 8]];
    for rule in RULES {
        assert_eq!(left(rule, 0), memory(&START), "{rule:?}");
        for group in 1..16 {
            let expected = if pools(group) { vec![0; 96] } else { memory(&kept) };
            assert_eq!(left(rule, group), expected, "{rule:?}, group {group:04x}");
        }
    }
}

/// A group that would read the start by pooling sees a run of it only where it may.
#[test]
fn a_start_that_two_read_together_shows_nothing_under_the_line() {
    let start = memory(&START);
    for (rule, shows) in RULES.into_iter().zip([true, false]) {
        let sheet = readers_apart(rule);
        let after = left(&sheet, &["b 1", "= 3", "i 9"], &start, 0b1100);
        let [before, after] = [start.clone(), after].map(|words| seen(&sheet, &words, 0b1100));
        assert_eq!(before != after, shows, "{rule:?}");
    }
}

/// Every script of a round is run under the rule.
#[test]
fn a_round_has_the_rule_in_each_script() {
    let script = ["= 1", "u 5 1", "x 0", "", "= 2", "k 1", "i 7", "", "= 1", "u 5 1", "x 0"];
    for (rule, opened) in RULES.into_iter().zip([&[3, 1, 62], &[4, 2, 1]]) {
        for i in ALL {
            let mut words = memory(&START);
            let round = (i.round)(&readers_apart(rule), &text(&script), &mut words, 0b1100, 1);
            assert_eq!((round.answer, &round.steps[..4]), (DONE, &[1, 1, 1, 0][..]), "{}", i.name);
            let mut expected = START;
            (expected[1], expected[2]) = (opened, &[3, 5, 1, 1, 7]);
            assert_eq!(words, memory(&expected), "{}: {rule:?}", i.name);
        }
    }
}

/// The effective readers and writers of a label, for each owner.
type Label = Vec<(u16, u16)>;

/// A sheet with these labels, and an integer at each.
fn sheet_of(labels: &[Label]) -> Vec<u8> {
    let mut lines = vec![format!("P {}", labels[0].len())];
    for label in labels {
        lines.push("L".to_string());
        let policy = |(owner, (r, w)): (usize, &(u16, u16))| format!("O {owner} {r:04x} {w:04x}");
        lines.extend(label.iter().enumerate().map(policy));
    }
    lines.extend((0..labels.len()).map(|label| format!("X 0 {label}")));
    text_of(&[&lines])
}

/// Which of the labels a group reads, by what it sees of their locations.
fn read(sheet: &[u8], count: usize, group: u16) -> Vec<bool> {
    let words = memory(&vec![&[1, 7][..]; count]);
    seen(sheet, &words, group).chunks(16).map(|location| location[0] == 1).collect()
}

fn at_or_below(a: &Label, b: &Label) -> bool {
    let mut owners = a.iter().zip(b);
    owners.all(|((readers, writers), (r, w))| r & !readers == 0 && writers & !w == 0)
}

fn readers(label: &Label) -> Vec<u16> {
    label.iter().map(|(readers, _)| *readers).collect()
}

/// Of labels on a sheet, under both rules: a group reads by the definition, whatever the writers;
/// who reads a label reads every label at or below it; who reads alone reads pooled, and a group of
/// one does both or neither. Gives how often a label below another is read with it, and how often
/// the rules differ.
fn assert_reading(labels: &[Label]) -> [u64; 2] {
    let (n, sheet) = (labels[0].len(), sheet_of(labels));
    let (mut below, mut differ) = (0, 0);
    for group in 0..1 << n {
        let [pooled, alone] = RULES.map(|rule| read(&under(rule, &sheet), labels.len(), group));
        for (rule, read) in RULES.into_iter().zip([&pooled, &alone]) {
            for (b, label) in labels.iter().enumerate() {
                assert_eq!(read[b], reads(rule, &readers(label), group), "{rule:?} {label:?}");
                let lower = (0..labels.len()).filter(|&a| at_or_below(&labels[a], label));
                for a in lower.filter(|&a| a != b && read[b]) {
                    assert!(read[a], "{rule:?}, group {group:04x}: {:?}, {label:?}", labels[a]);
                    below += 1;
                }
            }
        }
        for (pooled, alone) in pooled.into_iter().zip(alone) {
            assert!(pooled || !alone, "group {group:04x}: {labels:?}");
            assert!(pooled == alone || group.count_ones() > 1, "group {group:04x}: {labels:?}");
            differ += u64::from(pooled != alone);
        }
    }
    [below, differ]
}

/// Every label of two principals: each owner lets the other read or not, and write or not.
#[test]
fn who_reads_a_label_of_two_reads_what_is_below() {
    let sets = |choice: u16, owner: u16| {
        let set = |bit: u16| if choice >> bit & 1 == 1 { 0b11 } else { 1 << owner };
        (set(2 * owner), set(2 * owner + 1))
    };
    let labels: Vec<Label> = (0..16).map(|choice| vec![sets(choice, 0), sets(choice, 1)]).collect();
    let [below, differ] = assert_reading(&labels);
    assert!(below > 100 && differ == 4, "{below}, {differ}");
}

/// A label that is like another but for readers taken away and writers added.
fn raised(prng: &mut Prng, label: &Label) -> Label {
    let everyone = u16::MAX >> (16 - label.len());
    let (fewer, more) = (prng.chance(60), prng.chance(60));
    let raise = |(owner, &(readers, writers)): (usize, &(u16, u16))| {
        let kept = if fewer { prng.draw() as u16 | 1 << owner } else { u16::MAX };
        let added = if more { prng.draw() as u16 & everyone } else { 0 };
        (readers & kept, writers | added)
    };
    label.iter().enumerate().map(raise).collect()
}

/// Labels of n principals: many are at or below others, and many have the readers of others.
fn chains(prng: &mut Prng, n: usize) -> Vec<Label> {
    let everyone = u16::MAX >> (16 - n);
    let mut labels: Vec<Label> = Vec::new();
    while labels.len() < 32 {
        let new: Label = if labels.is_empty() || prng.chance(20) {
            let mut set = |owner: usize| (prng.draw() | prng.draw()) as u16 & everyone | 1 << owner;
            (0..n).map(|owner| (set(owner), 1 << owner)).collect()
        } else {
            let lower = prng.below(labels.len());
            raised(prng, &labels[lower])
        };
        if !labels.contains(&new) {
            labels.push(new);
        }
    }
    labels
}

#[test]
fn who_reads_a_label_of_three_or_four_reads_what_is_below() {
    for n in [3, 4] {
        let prng = &mut Prng::new(n as u64);
        let mut total = [0; 2];
        for _ in 0..60 {
            let counts = assert_reading(&chains(prng, n));
            total.iter_mut().zip(counts).for_each(|(total, count)| *total += count);
        }
        println!("{n} principals: {total:?} labels read below others, and by one rule alone");
        assert!(total[0] > 10_000 && total[1] > 1000, "{total:?}");
    }
}

/// The check asks of no group: its answer, and whether a script is trust-keeping, is the same under
/// both rules.
#[test]
fn no_check_turns_on_the_rule() {
    let mut accepted = 0;
    for seed in 0..trust_count() / 4 {
        let case = trust_case(seed);
        let Ok(sheet) = sheet_text::parse(&case.sheet) else {
            continue;
        };
        let with_other = under(other(sheet.reading), &case.sheet);
        for i in ALL {
            let [one, two] = [&case.sheet, &with_other].map(|sheet| (i.trust)(sheet, &case.script));
            assert_eq!(one, two, "{}, seed {seed}", i.name);
            accepted += u64::from(i.name == TESTED.name && one.answer == DONE);
        }
    }
    assert!(accepted * 8 > trust_count(), "{accepted} scripts were accepted");
}

/// One of the members of a group, or nobody where it has none.
fn member(group: u16) -> u16 {
    group & group.wrapping_neg()
}

/// A principal by himself is the same authority and sees the same under both rules.
#[test]
fn one_principal_is_the_same_under_both_rules() {
    let (mut written, mut looks) = (0, 0);
    for seed in 0..case_count() / 4 {
        let case = case(seed);
        let Ok(sheet) = sheet_text::parse(&case.sheet) else {
            continue;
        };
        let sheets = [&case.sheet, &under(other(sheet.reading), &case.sheet)];
        let (authority, group) = (member(case.authority), member(case.group));
        for i in ALL {
            let [one, two] = sheets.map(|sheet| {
                let mut memory = case.memory.clone();
                let outcome = (i.run)(sheet, &case.script, &mut memory, authority, case.budget);
                (outcome, memory)
            });
            assert_eq!(one, two, "{}, seed {seed}", i.name);
            written += u64::from(i.name == TESTED.name && one.1 != case.memory);
            let [one, two] = sheets.map(|sheet| {
                let mut view = vec![7; case.view_length];
                ((i.view)(sheet, &case.memory, group, &mut view), view)
            });
            assert_eq!(one, two, "{}, seed {seed}", i.name);
            let shows = one.0 == DONE && one.1.iter().any(|&word| word != 0);
            looks += u64::from(i.name == TESTED.name && shows);
        }
    }
    assert!(written * 20 > case_count() && looks * 20 > case_count(), "{written}, {looks}");
}

/// A group sees what some member reads, label by label: of a package one member may read the
/// location and another the content.
#[test]
fn members_read_a_location_and_its_content_apart() {
    let sheet = text(&["P 2", "R 1", "L", "O 0 0000 0000", "L", "O 1 0000 0000", "X 2 0"]);
    let package = memory(&[&[5, 1, 1, 9]]);
    assert_eq!(seen(&sheet, &package, 0b11), package);
    assert_eq!(seen(&sheet, &package, 0b01), memory(&[&[5, 1, 0]]));
    assert_eq!(seen(&sheet, &package, 0b10), memory(&[&[]]));
}

/// An unpack asks who reads the wanted label, also where the package's is below it and read.
#[test]
fn an_unpack_asks_for_the_wanted_label() {
    let lines = ["P 4", "T 0 1", "L", "L", "O 0 0004 000f", "O 1 0008 000f", "X 2 0", "X 5 1"];
    let start = memory(&[&[5, 0, 1, 9], &[4, 2, 3]]);
    let opened = memory(&[&[5, 0, 1, 9], &[3, 1, 9]]);
    let refused = memory(&[&[5, 0, 1, 9], &[4, 2, 1]]);
    for (rule, wanted, after) in [
        (Reading::Pooled, "u 5 1", &opened),
        (Reading::Alone, "u 5 1", &refused),
        (Reading::Alone, "u 5 0", &opened),
    ] {
        let sheet = under(rule, &text(&lines));
        assert_eq!(left(&sheet, &["= 1", wanted, "x 0"], &start, 0b1100), *after, "{wanted}");
    }
}
