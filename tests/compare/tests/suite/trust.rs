//! Whether a script is trust-keeping, on every implementation: whether each of its unpacks has an
//! operand whose least label is at or below the wanted label.

use crate::common::{contexts, lines, sheet, text, text_of, trust, untrusted, ENDORSING, KEEPING};
use reference::{Trust, DONE};

/// A sheet of six labels. Location a holds a package under label a, 6 + a an int+error (type 5),
/// 12 + a a pkg+error and 18 + a an int. Type 6 is int+pkg.
fn labelled() -> Vec<u8> {
    let bottom = ["L", "O 0 0007 0000", "O 1 0007 0000", "O 2 0007 0000"];
    let open = ["L"];
    let one_writer = ["L", "O 0 0007 0000"];
    let another_writer = ["L", "O 1 0007 0000"];
    let one_reader = ["L", "O 0 0000 0007"];
    let alone = ["L", "O 0 0000 0000"];
    let labels = [&bottom[..], &open, &one_writer, &another_writer, &one_reader, &alone].concat();
    let locations =
        [2, 5, 4, 0].into_iter().flat_map(|ty| (0..6).map(move |a| format!("X {ty} {a}")));
    let locations: Vec<String> = locations.collect();
    text_of(&[&lines(&["P 3", "T 0 1", "T 0 2"]), &lines(&labels), &locations])
}

const LABELS: usize = 6;

/// The labels that each of them is at or below.
const ABOVE: [&[usize]; LABELS] =
    [&[0, 1, 2, 3, 4, 5], &[1, 4], &[1, 2, 4, 5], &[1, 3, 4], &[4], &[4, 5]];

/// I of each is the label of this number, since those before the last two let everyone read.
const INTEGRITY: [usize; LABELS] = [0, 1, 2, 3, 1, 2];

/// What a script answers with an unpack of operands under these labels.
fn answer(operands: &[usize], wanted: usize) -> Trust {
    let one_reads = |label: usize| label >= 4;
    if operands.iter().any(|&operand| one_reads(operand) && !one_reads(wanted)) {
        untrusted(6)
    } else if operands.iter().all(|&operand| ABOVE[operand].contains(&wanted)) {
        KEEPING
    } else {
        ENDORSING
    }
}

/// The trust of a script whose lines are parted by commas here.
fn told(script: &str) -> Trust {
    trust(&labelled(), &text(&script.split(',').collect::<Vec<&str>>()))
}

/// A command with an unpack that is trust-keeping, with one that isn't, and with one that isn't
/// accepted. The two labels of the second have the same readers.
const GOOD: [&str; 5] = ["c", "u 5 2", "x 2", "s", "s"];
const BAD: [&str; 5] = ["c", "u 5 2", "x 1", "s", "s"];
const REFUSED: [&str; 5] = ["c", "u 5 1", "x 4", "s", "s"];

#[test]
fn the_cases_of_the_scope() {
    let table: &[(&[&str], Trust)] = &[
        (&["= 1", "x 0"], KEEPING),
        (&["= 2", "k 2", "x 1"], KEEPING),
        (&["c", "x 2", "= 3", "u 5 2", "v 0", "s"], KEEPING),
        (&["c", "x 2", "= 3", "u 5 1", "v 0", "s"], ENDORSING),
        (&["= 0", "x 1"], untrusted(6)),
        (&["= 0", "x 2"], untrusted(5)),
        (&["= 2", "k 1", "x 1"], untrusted(6)),
    ];
    for (script, answer) in table {
        assert_eq!(trust(&sheet(), &text(script)), *answer, "{script:?}");
    }
}

#[test]
fn a_script_without_unpacks_is_trust_keeping() {
    let scripts = ["s", ";,s,s", "= 18,i 1", "w,l 3,i 1,s", "c,k 4,x 1,s,s", "= 13,k 1,x 19"];
    for script in scripts.into_iter().chain(["b 5,s", "b 1,= 19,i 1", "c,x 17,= 22,i 1,s"]) {
        assert_eq!(told(script), KEEPING, "{script}");
    }
}

#[test]
fn an_operand_is_at_or_below_the_wanted_label() {
    for (operand, wanted) in (0..36).map(|pair| (pair / LABELS, pair % LABELS)) {
        let (bound, opened) = (12 + operand, 6 + wanted);
        let expected = answer(&[operand], wanted);
        let of_one = [
            format!("c,u 5 {wanted},x {operand},s,s"),
            format!("= {opened},u 5 {wanted},x {operand}"),
            format!("c,k {wanted},u 5 {wanted},x {operand},s,s"),
            format!("c,l 4,x {operand},c,u 5 {wanted},v 0,s,s,s"),
            format!("c,x {bound},c,u 5 {wanted},v 0,s,s,s"),
            format!("c,x {bound},c,l 3,i 1,s,c,u 5 {wanted},v 1,s,s,s"),
        ];
        for script in of_one {
            assert_eq!(told(&script), expected, "{script}");
        }
        let packed = format!("c,k {operand},i 1,c,u 5 {wanted},v 0,s,s,s");
        assert_eq!(told(&packed), answer(&[INTEGRITY[operand]], wanted), "{packed}");
        for second in 0..LABELS {
            let joined =
                format!("c,l 6,+,x {},x {},s,c,u 5 {wanted},v 0,s,s", 18 + operand, 18 + second);
            assert_eq!(told(&joined), answer(&[operand, second], wanted), "{joined}");
        }
    }
}

#[test]
fn the_label_that_was_opened_is_the_operand_s() {
    // the package that is opened from location 1 has the wanted label, whatever the location's is
    for (first, second) in (0..36).map(|pair| (pair / LABELS, pair % LABELS)) {
        let script = format!("c,u 4 {first},x 1,c,u 5 {second},v 0,s,s,s");
        let (outer, inner) = (answer(&[1], first), answer(&[first], second));
        let both = if inner.answer != DONE || outer == KEEPING { inner } else { outer };
        assert_eq!(told(&script), both, "{script}");
    }
}

#[test]
fn every_binding_has_its_own_label() {
    let bound = [0, 1, 2, 3, 1, 0, 2];
    let open: Vec<String> =
        bound.iter().flat_map(|a| ["c".to_string(), format!("x {}", 12 + a)]).collect();
    let close = lines(&vec!["s"; bound.len()]);
    for (place, operand) in bound.into_iter().rev().enumerate() {
        for wanted in 0..LABELS {
            let unpack = [format!("u 5 {wanted}"), format!("v {place}")];
            let inner = [&lines(&["c"])[..], &unpack, &lines(&["s", "s"])].concat();
            let script = text_of(&[&open, &inner, &close]);
            let expected = answer(&[operand], wanted);
            assert_eq!(trust(&labelled(), &script), expected, "v {place}, {wanted}");
        }
    }
}

#[test]
fn an_unpack_counts_wherever_it_stands() {
    for (before, after) in contexts(3) {
        for (command, expected) in [(GOOD, KEEPING), (BAD, ENDORSING), (REFUSED, untrusted(6))] {
            let script = text(&[&before[..], &command, &after].concat());
            assert_eq!(trust(&labelled(), &script), expected, "{before:?}");
        }
    }
}

#[test]
fn a_case_has_two_branches_and_an_expression() {
    for (left, right, nested) in (0..8).map(|bits| (bits & 1, bits >> 1 & 1, bits >> 2)) {
        let of = |bad| if bad == 1 { BAD } else { GOOD };
        let expected = if left + right + nested == 0 { KEEPING } else { ENDORSING };
        let branches = [&of(left)[..], &of(right)].concat();
        let guard = &of(nested)[..3];
        assert_eq!(trust(&labelled(), &text(&[guard, &branches].concat())), expected);
        let loops = [&["w", "l 3", "i 1"], guard, &branches].concat();
        assert_eq!(trust(&labelled(), &text(&loops)), expected);
        let after = [&[";", "c", "l 3", "i 1"][..], &branches, &of(nested)].concat();
        assert_eq!(trust(&labelled(), &text(&after)), expected);
    }
}

/// One after the other, with `;` before each but the last.
fn in_order(commands: &[[&'static str; 5]]) -> Vec<&'static str> {
    let (last, others) = commands.split_last().expect("a command");
    let others = others.iter().flat_map(|command| [&[";"][..], command].concat());
    others.chain(last.iter().copied()).collect()
}

#[test]
fn every_unpack_counts() {
    for count in 1..=6 {
        for bits in 0..1 << count {
            let bad = |place: usize| if bits >> place & 1 == 1 { BAD } else { GOOD };
            let commands: Vec<[&str; 5]> = (0..count).map(bad).collect();
            let expected = if bits == 0 { KEEPING } else { ENDORSING };
            let to_the_right = in_order(&commands);
            let to_the_left = [vec![";"; count - 1], commands.concat()].concat();
            assert_eq!(trust(&labelled(), &text(&to_the_left)), expected, "{bits:b} of {count}");
            for start in [None, Some("b 0"), Some("b 1"), Some("b 2"), Some("b 5")] {
                let script: Vec<&str> = start.into_iter().chain(to_the_right.clone()).collect();
                assert_eq!(trust(&labelled(), &text(&script)), expected, "{start:?} {bits:b}");
            }
        }
    }
}

#[test]
fn every_unpack_of_the_longest_script_counts() {
    let good = vec![GOOD; 85];
    let script = in_order(&good);
    assert_eq!(script.len(), 509);
    assert_eq!(trust(&labelled(), &text(&script)), KEEPING);
    for place in 0..good.len() {
        for (command, expected) in [(BAD, ENDORSING), (REFUSED, untrusted(6))] {
            let mut commands = good.clone();
            commands[place] = command;
            let script = [&["b 0", ";", "s"][..], &in_order(&commands)].concat();
            assert_eq!(trust(&labelled(), &text(&script)), expected, "{place}");
            let too_long = [&["b 0", ";", "s", ";", "s"][..], &in_order(&commands)].concat();
            assert_eq!(trust(&labelled(), &text(&too_long)), untrusted(4), "{place}");
        }
    }
}

#[test]
fn a_start_is_no_operand_s_label() {
    for (start, operand) in (0..36).map(|pair| (pair / LABELS, pair % LABELS)) {
        for wanted in 0..LABELS {
            let script = format!("b {start},c,u 5 {wanted},x {operand},s,s");
            assert_eq!(told(&script), answer(&[operand], wanted), "{script}");
            // nor is that of a guard
            let guarded = format!("c,x {},c,u 5 {wanted},x {operand},s,s,s", 12 + start);
            assert_eq!(told(&guarded), answer(&[operand], wanted), "{guarded}");
            let assigned = format!("b {start},= {},u 5 {wanted},x {operand}", 6 + wanted);
            let starts = ABOVE[start].contains(&wanted);
            let expected = if starts { answer(&[operand], wanted) } else { untrusted(6) };
            assert_eq!(told(&assigned), expected, "{assigned}");
        }
    }
}

#[test]
fn a_refused_script_is_not_trust_keeping() {
    let (form, good) = (text(&["P 3", "T 0 9"]), labelled());
    let repeats = text(&["P 3", "L", "L", "X 2 0"]);
    let table: &[(&[u8], &[&str], u8)] = &[
        (&form, &["s"], 1),
        (&form, &["q"], 1),
        (b"", &["s"], 1),
        (&repeats, &["s"], 2),
        (&repeats, &["q"], 2),
        (&good, &[], 4),
        (&good, &["q"], 4),
        (&good, &["c", "u 5 6", "x 2", "s", "s"], 4),
        (&good, &["c", "u 7 2", "x 2", "s", "s"], 4),
        (&good, &["c", "u 5 2", "x 24", "s", "s"], 4),
        (&good, &["b 6", "c", "u 5 2", "x 2", "s", "s"], 4),
        (&good, &[";", "= 18", "x 0", "c", "u 5 6", "x 2", "s", "s"], 4),
        (&good, &["c", "u 3 2", "x 2", "s", "s"], 5),
        (&good, &["c", "u 5 2", "x 8", "s", "s"], 5),
        (&good, &["c", "u 5 2", "x 20", "s", "s"], 5),
        (&good, &[";", "c", "u 5 1", "x 4", "s", "s", "= 18", "x 0"], 5),
        (&good, &["c", "u 5 1", "x 4", "s", "s"], 6),
        (&good, &["c", "k 2", "u 5 1", "x 1", "s", "s"], 6),
        (&good, &["= 8", "u 5 1", "x 1"], 6),
        (&good, &["b 1", "= 8", "u 5 2", "x 2"], 6),
        (&good, &[";", "= 18", "x 19", "c", "u 5 2", "x 2", "s", "s"], 6),
    ];
    for (sheet, script, answer) in table {
        assert_eq!(trust(sheet, &text(script)), untrusted(*answer), "{script:?}");
    }
}
