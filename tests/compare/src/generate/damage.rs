//! Damage to texts, memories and the inputs of programs.

use super::prng::Prng;
use super::{damage_pairs, damage_rule};
use reference::value::MOST_WORDS;

/// Lines that can replace one of a sheet.
const SHEET_LINES: &[&str] = &[
    "P\t3",
    "P\t0",
    "P\t17",
    "P\t03",
    "P\t1",
    "P",
    "R\t1",
    "R\t0",
    "R",
    "T\t0\t1",
    "T\t0\t0",
    "T\t2\t1",
    "T\t4\t40",
    "T\t0",
    "T\t5\t5",
    "Q\t0\t0",
    "Q\t0\t1",
    "Q\t2\t1",
    "Q\t5\t5",
    "Q\t4\t40",
    "Q\t0",
    "Q\t0\t1\t2",
    "q\t0\t1",
    "L",
    "L\t",
    "O\t0\t0000\t0000",
    "O\t0\t0001\t0001",
    "O\t1\t0000\t0003",
    "O\t16\t0000\t0000",
    "O\t0\t000F\t0000",
    "O\t0\tffff\tffff",
    "O\t0\t000\t0000",
    "O\t0\t00000\t0000",
    "X\t0\t0",
    "X\t40\t0",
    "X\t0\t32",
    "X\t0\t00",
    "X\t0 0",
    "Y\t0\t0",
    "",
    " ",
    "#",
    "X\t-1\t0",
    "X\t0\t0\t0",
    "X\t0\t0\r",
];

/// Lines that can replace one of a script.
const SCRIPT_LINES: &[&str] = &[
    "s",
    ";",
    "=\t0",
    "=\t64",
    "=",
    "w",
    "c",
    "i\t0",
    "i\t4294967295",
    "i\t4294967296",
    "i\t00",
    "i\t",
    "x\t0",
    "x\t1",
    "x\t64",
    "v\t0",
    "v\t1",
    "v\t8",
    "+",
    "l\t3",
    "r\t3",
    "l\t0",
    "r\t32",
    "l\t5",
    "r\t4",
    "k\t0",
    "k\t32",
    "u\t4\t0",
    "u\t3\t0",
    "u\t5\t1",
    "u\t4\t32",
    "u\t32\t0",
    "u\t4",
    "p\t5",
    "p\t32",
    "f",
    "g",
    "s\t",
    "S",
    "",
    " s",
    "ss",
    "v\t99999999999999999999",
    "i\t-1",
    "b\t0",
    "b\t1",
    "b\t32",
    "b",
];

/// Lines that can stand where a script opens: mostly wrong.
const START_LINES: &[&str] = &[
    "b",
    "b\t",
    "b\t0\t0",
    "b\t00",
    "b\t-1",
    "b\t3",
    "b\t4",
    "b\t5",
    "b\t6",
    "b\t32",
    "b\t256",
    "b\t4294967295",
    "b\t4294967296",
    "b0",
    "bb\t0",
    "B\t0",
];

/// Texts that can replace one of an input: sets, numbers and what is nearly one.
const FIELDS: &[&str] = &[
    "0001\n",
    "0000\n",
    "ffff\n",
    "0001",
    "001\n",
    "00001\n",
    "000A\n",
    "0x01\n",
    "0001\n0001\n",
    "0001\r\n",
    "0001\t\n",
    "0\n",
    "7\n",
    "7",
    "07\n",
    "+7\n",
    "-7\n",
    " 7\n",
    "7 \n",
    "7\t\n",
    "7\r\n",
    "7.0\n",
    "4294967295\n",
    "4294967296\n",
    "18446744073709551616\n",
    "no budget\n",
    "\n",
    "",
];

pub fn sheet(prng: &mut Prng, text: &[u8]) -> Vec<u8> {
    match prng.below(24) {
        0..=5 => repeated(prng, text),
        6 => damage_pairs::too_many_types(prng, text),
        7..=9 => damage_pairs::type_line_changed(prng, text)
            .unwrap_or_else(|| damaged(prng, text, SHEET_LINES)),
        10..=13 => damage_rule::rule(prng, text),
        _ => damaged(prng, text, SHEET_LINES),
    }
}

/// A sheet with a type or a label put in twice.
fn repeated(prng: &mut Prng, text: &[u8]) -> Vec<u8> {
    let mut blocks: Vec<Vec<u8>> = Vec::new();
    for line in text.split_inclusive(|&b| b == b'\n') {
        match blocks.last_mut() {
            Some(label) if line.starts_with(b"O") => label.extend(line),
            _ => blocks.push(line.to_vec()),
        }
    }
    let repeatable = |&i: &usize| matches!(blocks[i][0], b'T' | b'Q' | b'L');
    let mut places: Vec<usize> = (0..blocks.len()).filter(repeatable).collect();
    if prng.chance(50) && places.iter().any(|&i| blocks[i][0] != b'L') {
        places.retain(|&i| blocks[i][0] != b'L');
    }
    if !places.is_empty() {
        let at = prng.pick(&places);
        blocks.insert(at, blocks[at].clone());
    }
    blocks.concat()
}

pub fn script(prng: &mut Prng, text: &[u8]) -> Vec<u8> {
    match prng.below(20) {
        0..=6 => opening(prng, text),
        7..=13 => damage_pairs::script_line_changed(prng, text)
            .unwrap_or_else(|| script_lines(prng, text)),
        _ => script_lines(prng, text),
    }
}

/// A script with some of its lines or bytes changed.
pub fn script_lines(prng: &mut Prng, text: &[u8]) -> Vec<u8> {
    damaged(prng, text, SCRIPT_LINES)
}

/// A script with a `b` line that is alone, there twice, further down, last, one line too many, or
/// wrong.
pub fn opening(prng: &mut Prng, text: &[u8]) -> Vec<u8> {
    let mut lines = lines_of(text);
    let starts = lines.first().is_some_and(|line| line.starts_with(b"b\t"));
    let start = if starts { lines.remove(0) } else { format!("b\t{}\n", prng.below(4)).into() };
    let at = prng.between(0, lines.len());
    let before = match prng.below(10) {
        0 => return start,
        1 => vec![start.clone(), start],
        2 => {
            lines.insert(at, start.clone());
            vec![start]
        }
        3 => {
            lines.insert(at, start);
            vec![]
        }
        4 => {
            lines.push(start);
            vec![]
        }
        5 | 6 => {
            let pairs = 512usize.saturating_sub(lines.len()) / 2;
            lines.splice(0..0, [&b";\n"[..], b"s\n"].repeat(pairs).iter().map(|l| l.to_vec()));
            vec![start]
        }
        _ => vec![format!("{}\n", prng.pick(START_LINES)).into()],
    };
    [before, lines].concat().concat()
}

/// A script that starts at the label after the last of `labels`.
pub fn start_past_last(text: &[u8], labels: usize) -> Vec<u8> {
    let mut lines = lines_of(text);
    if lines.first().is_some_and(|line| line.starts_with(b"b\t")) {
        lines.remove(0);
    }
    lines.insert(0, format!("b\t{labels}\n").into());
    lines.concat()
}

/// The lines of a text, each with its end.
pub(super) fn lines_of(text: &[u8]) -> Vec<Vec<u8>> {
    text.split_inclusive(|&b| b == b'\n').map(<[u8]>::to_vec).collect()
}

/// A text with a line or a byte changed, more than once at times.
fn damaged(prng: &mut Prng, text: &[u8], replacements: &[&str]) -> Vec<u8> {
    let mut text = text.to_vec();
    for _ in 0..prng.pick(&[1, 1, 1, 2, 5]) {
        text = if prng.chance(60) {
            change_line(prng, &text, replacements)
        } else {
            change_byte(prng, text)
        };
    }
    text
}

fn change_line(prng: &mut Prng, text: &[u8], replacements: &[&str]) -> Vec<u8> {
    let mut lines = lines_of(text);
    let new = format!("{}\n", prng.pick(replacements)).into_bytes();
    if lines.is_empty() {
        return new;
    }
    let at = prng.below(lines.len());
    let other = prng.below(lines.len());
    match prng.below(7) {
        0 => drop(lines.remove(at)),
        1 => lines.insert(at, lines[at].clone()),
        2 => lines.swap(at, other),
        3 => lines.insert(at, new),
        4 => lines.push(new),
        5 => lines.truncate(at),
        _ => lines[at] = new,
    }
    lines.concat()
}

fn change_byte(prng: &mut Prng, mut text: Vec<u8>) -> Vec<u8> {
    const BYTES: &[u8] = b"0123456789\t\n\r -+;=swcixvlrkubpfgPRTQLOXaF\x00\xff";
    let byte = prng.pick(BYTES);
    if text.is_empty() {
        return vec![byte];
    }
    let at = prng.below(text.len());
    match prng.below(6) {
        0 => drop(text.remove(at)),
        1 => text.insert(at, byte),
        2 => drop(text.pop()),
        3 => text.push(byte),
        4 => text.make_ascii_uppercase(),
        _ => text[at] = byte,
    }
    text
}

/// A memory with a pair damaged, one location's words put at another, or a word or two changed,
/// mostly near the start of a location.
pub fn memory(prng: &mut Prng, words: &[u32]) -> Vec<u32> {
    let mut words = words.to_vec();
    if words.is_empty() || (prng.chance(60) && damage_pairs::memory(prng, &mut words)) {
        return words;
    }
    let locations = words.len() / MOST_WORDS;
    if prng.chance(40) {
        let from = prng.below(locations) * MOST_WORDS;
        let to = prng.below(locations) * MOST_WORDS;
        words.copy_within(from..from + MOST_WORDS, to);
        return words;
    }
    for _ in 0..prng.pick(&[1, 1, 2]) {
        let location = prng.below(locations);
        let place = if prng.chance(70) { prng.below(5) } else { prng.below(MOST_WORDS) };
        words[location * MOST_WORDS + place] =
            prng.pick(&[0, 1, 2, 3, 4, 5, 6, 7, 31, 32, u32::MAX]);
    }
    words
}

/// An input of several texts with damage to it as a whole: a text that is missing, one too many, in
/// another's place, huge, of any bytes, or another field; or a line or a byte changed anywhere.
pub fn input(prng: &mut Prng, mut texts: Vec<Vec<u8>>) -> Vec<u8> {
    let at = prng.below(texts.len());
    let other = prng.below(texts.len());
    match prng.below(10) {
        0 => drop(texts.remove(at)),
        1 => texts.truncate(at),
        2 => texts[at].clear(),
        3 => texts.insert(at, texts[other].clone()),
        4 => texts.swap(at, other),
        5 => texts[at] = huge(prng, &texts[at]),
        6 => texts[at] = binary(prng),
        7 => texts[at] = prng.pick(FIELDS).into(),
        8 => *texts.last_mut().expect("an input has a text") = prng.pick(FIELDS).into(),
        _ => return script(prng, &texts.join(&b'\n')),
    }
    texts.join(&b'\n')
}

/// A text of more bytes than any may have, mostly by little.
fn huge(prng: &mut Prng, text: &[u8]) -> Vec<u8> {
    let length = prng.pick(&[16_385, 16_386, 20_000, 70_000, 300_000]);
    let filling = if text.is_empty() || prng.chance(50) { b"1\n" } else { text };
    let mut huge = text.to_vec();
    while huge.len() < length {
        huge.extend(filling);
    }
    huge
}

/// Bytes of every kind, byte 10 among the commoner ones.
fn binary(prng: &mut Prng) -> Vec<u8> {
    let length = prng.below(400);
    (0..length).map(|_| if prng.chance(10) { b'\n' } else { prng.draw() as u8 }).collect()
}
