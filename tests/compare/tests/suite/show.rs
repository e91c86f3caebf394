//! The program *show*: its example, its refusals, and the program itself where it is there.

use crate::common::{sheet, text};
use compare::generate::program_input::show_input;
use compare::show::{answer, show};
use reference::{Refusal, DONE};
use std::collections::BTreeMap;

/// An input of show from its three texts.
fn input(sheet: &[u8], memory: &[&str], group: &str) -> Vec<u8> {
    [sheet, b"\n", &text(memory), b"\n", group.as_bytes()].concat()
}

const PACKED: &[&str] = &["1 5", "1 62", "3 5 2 1 62", "4 2 1"];

/// An input of show whose locations are a pkg*int and two int*pkg. Principal 0 alone reads label 1.
fn paired(memory: &[&str], group: &str) -> Vec<u8> {
    let locations = ["X 5 0", "X 6 0", "X 6 0"];
    let lines = [&["P 2", "Q 2 0", "Q 0 2", "L", "L", "O 0 0000 0003"], &locations[..]].concat();
    input(&text(&lines), memory, group)
}

/// An input of show in which principal 2 reads label 1 for owner 0 and principal 3 for owner 1, under
/// the rule of reading of the line `rule`, where there is one.
fn ruled(rule: &[&str], group: &str) -> Vec<u8> {
    let rest = ["L", "L", "O 0 0004 0000", "O 1 0008 0000", "X 2 0", "X 0 1"];
    input(&text(&[&["P 4"], rule, &rest].concat()), &["5 1 1 62", "1 7"], group)
}

/// The last ends in integer 0 inside a package of label 0.
const PAIRS: &[&str] = &["6 5 1 1 62 1 7", "6 1 7 5 1 1 62", "6 1 0 5 0 1"];
const SIXTEEN: &str = "6 5 1 3 3 3 3 3 3 3 3 3 1 62 1 7";
const SEVENTEEN: &str = "6 5 1 3 3 3 3 3 3 3 3 3 3 1 62 1 7";

/// Inputs and what show prints for them.
fn table() -> Vec<(Vec<u8>, Vec<u8>)> {
    let good = |memory: &[&str], group: &str| input(&sheet(), memory, group);
    let prints = |input: Vec<u8>, output: &[&str]| (input, text(output));
    vec![
        prints(good(PACKED, "0002\n"), &["1 5", "", "3 5 2", ""]),
        prints(good(PACKED, "0001\n"), PACKED),
        prints(good(PACKED, "0000\n"), &["", "", "", ""]),
        prints(good(&["1", "1 62", "3 5", "4 2 1"], "0001\n"), &["8"]),
        prints(
            good(&["1", "1 62", "3 5 0 1", "4 2 1"], "0001\n"),
            &["1", "1 62", "3 5 0 1", "4 2 1"],
        ),
        prints(good(&["1 0", "1 62", "4 2 1", "4 2 1"], "0001\n"), &["8"]),
        prints(good(&["1 5", "1 62", "4 2 1"], "0001\n"), &["8"]),
        prints(good(&["1 5", "1 62", "4 2 1", "4 2 1", "1"], "0001\n"), &["8"]),
        prints(good(&["1 5", "1 x", "4 2 1", "4 2 1"], "0001\n"), &["8"]),
        prints(good(&[], "0001\n"), &["8"]),
        prints(good(PACKED, "0008\n"), &["3"]),
        prints(good(PACKED, "0002"), &["3"]),
        prints(good(PACKED, "002\n"), &["3"]),
        prints(good(PACKED, "000A\n"), &["3"]),
        prints(good(PACKED, "0002\n\n"), &["3"]),
        prints(good(PACKED, ""), &["3"]),
        prints(good(&["x"], ""), &["3"]),
        prints(sheet(), &["3"]),
        prints([&sheet()[..], b"\n"].concat(), &["3"]),
        prints(Vec::new(), &["1"]),
        prints(b"\n\n0001\n".to_vec(), &["1"]),
        prints(input(b"P\t3", PACKED, "0001\n"), &["1"]),
        prints(input(b"P\t3\nL\nL\n", PACKED, "8000\n"), &["2"]),
        prints(b"P\t1\n\n\n0001\n".to_vec(), &[]),
        prints(b"P\t1\n\n1\n\n0001\n".to_vec(), &["8"]),
        prints(input(&b"P\t1\n".repeat(5000), PACKED, "0001\n"), &["1"]),
        prints(good(&["1 5"; 5000], "0001\n"), &["8"]),
        prints(good(&["1 5"; 5000], &"0".repeat(20_000)), &["3"]),
        prints(good(PACKED, &"0001\n".repeat(5000)), &["3"]),
        prints(b"P\t1\n\n\n0003\n".to_vec(), &["3"]),
        prints(paired(PAIRS, "0001\n"), PAIRS),
        prints(paired(PAIRS, "0002\n"), &["6 5 1 0 1 7", "6 1 7 5 1", PAIRS[2]]),
        prints(paired(PAIRS, "0000\n"), &["", "", ""]),
        prints(paired(&["6 5 1 1", PAIRS[1], PAIRS[2]], "0001\n"), &["8"]),
        prints(paired(&["6 5 1 1 62", PAIRS[1], PAIRS[2]], "0001\n"), &["8"]),
        prints(paired(&["6 5 1 1 62 2 7", PAIRS[1], PAIRS[2]], "0001\n"), &["8"]),
        prints(paired(&[PAIRS[0], "6 1 7 5 2 1 62", PAIRS[2]], "0001\n"), &["8"]),
        prints(paired(&[PAIRS[0], PAIRS[1], "6 1 0 5 0 1 0"], "0001\n"), &["8"]),
        prints(
            paired(&[SIXTEEN, PAIRS[1], PAIRS[2]], "0002\n"),
            &["6 5 1 0 1 7", "6 1 7 5 1", PAIRS[2]],
        ),
        prints(paired(&[&format!("{SIXTEEN} 1"), PAIRS[1], PAIRS[2]], "0002\n"), &["8"]),
        prints(paired(&[SEVENTEEN, PAIRS[1], PAIRS[2]], "0002\n"), &["8"]),
        prints(input(b"P\t1\nQ\t0\t0\nQ\t0\t0\n", &[], "0001\n"), &["2"]),
        prints(input(b"P\t1\nQ\t0\t5\n", &[], "0001\n"), &["1"]),
        prints(ruled(&[], "000c\n"), &["5 1 1 62", "1 7"]),
        prints(ruled(&["R 1"], "000c\n"), &["5 1", ""]),
        prints(ruled(&["R 1"], "0000\n"), &["", ""]),
        prints(ruled(&["R 1"], "0010\n"), &["3"]),
        prints(ruled(&["R 0"], "000c\n"), &["1"]),
        prints(ruled(&["R 1", "R 1"], "000c\n"), &["1"]),
    ]
}

#[test]
fn the_example_and_the_refusals() {
    for (input, output) in table() {
        let shown = input.escape_ascii().to_string();
        assert_eq!(
            show(&input).escape_ascii().to_string(),
            output.escape_ascii().to_string(),
            "{shown}"
        );
    }
}

/// The seeds of the inputs that the program is tried on.
const SEEDS: std::ops::Range<u64> = 0..1000;

#[test]
fn generated_inputs_reach_every_answer() {
    let (mut counts, mut pairs, mut alone) = (BTreeMap::new(), 0, 0);
    for seed in SEEDS {
        let input = show_input(seed);
        let shown = answer(&input);
        let ruled = input.split(|&byte| byte == b'\n').nth(1) == Some(b"R\t1");
        alone += usize::from(ruled && shown.is_ok());
        let paired = |words: &[u32]| words.chunks(16).any(|location| location[0] == 6);
        pairs += usize::from(shown.as_deref().is_ok_and(paired));
        *counts.entry(shown.err().map_or(DONE, Refusal::number)).or_insert(0) += 1;
    }
    println!("show: {counts:?}, {pairs} with pairs, {alone} with one reader alone");
    assert!(pairs >= 100 && alone >= 200, "{pairs}, {alone}");
    assert_eq!(counts.keys().copied().collect::<Vec<u8>>(), [0, 1, 2, 3, 8]);
    assert!(counts.values().all(|&count| count >= 10), "{counts:?}");
}

#[cfg(feature = "programs")]
mod program {
    use super::{show, show_input, table, SEEDS};
    use crate::program::printed;

    #[test]
    fn the_program_prints_the_same() {
        let inputs = table().into_iter().map(|(input, _)| input);
        for input in inputs.chain(SEEDS.map(show_input)) {
            let shown = input.escape_ascii().to_string();
            assert_eq!(
                printed(&input).escape_ascii().to_string(),
                show(&input).escape_ascii().to_string(),
                "{shown}"
            );
        }
    }
}
