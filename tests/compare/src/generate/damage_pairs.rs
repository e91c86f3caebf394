//! Damage to what has to do with pairs: lines that make types, lines of scripts that make a pair or
//! take a part, and the pairs of a memory, their second parts above all.

use super::damage::lines_of;
use super::prng::Prng;
use super::sheet::type_line;
use reference::types::{given, Type};
use reference::value::MOST_WORDS;

/// The lines of a text, and one of those that start with these bytes.
fn line_with(prng: &mut Prng, text: &[u8], kinds: &[u8]) -> Option<(Vec<Vec<u8>>, usize)> {
    let lines = lines_of(text);
    let places: Vec<usize> = (0..lines.len()).filter(|&at| kinds.contains(&lines[at][0])).collect();
    if places.is_empty() {
        None
    } else {
        Some((lines, prng.pick(&places)))
    }
}

/// Where the lines that make types start: after `P`, and `R 1` where it stands.
fn first_type(lines: &[Vec<u8>]) -> usize {
    let before = |line: &&Vec<u8>| matches!(line[0], b'P' | b'R');
    lines.iter().take_while(before).count()
}

/// A sheet with 28 lines that make types, each new one of the type before it.
pub fn too_many_types(prng: &mut Prng, text: &[u8]) -> Vec<u8> {
    let mut lines = lines_of(text);
    let made = lines.iter().filter(|line| matches!(line[0], b'T' | b'Q')).count();
    let end = first_type(&lines) + made;
    let new = (made..28).map(|before| {
        let newest = given().len() - 1 + before;
        let kind = if prng.chance(50) { Type::Sum } else { Type::Pair };
        type_line(kind(newest, prng.below(given().len()))).into_bytes()
    });
    let new: Vec<Vec<u8>> = new.collect();
    lines.splice(end..end, new);
    lines.concat()
}

/// A sheet with one of the lines that make types changed: a part that isn't earlier, a field too few
/// or too many, the other kind, or moved behind all others. Nothing where it has none.
pub fn type_line_changed(prng: &mut Prng, text: &[u8]) -> Option<Vec<u8>> {
    let (mut lines, at) = line_with(prng, text, b"TQ")?;
    let kind = lines[at][0] as char;
    // the number of the type that the line makes
    let own = given().len() + at - first_type(&lines);
    let later = format!("{kind}\t{}\t{}\n", prng.pick(&[0, own]), prng.pick(&[own, own + 1]));
    match prng.below(6) {
        0 | 1 => lines[at] = later.into_bytes(),
        2 => lines[at] = format!("{kind}\t0\n").into_bytes(),
        3 => lines[at] = format!("{kind}\t0\t1\t0\n").into_bytes(),
        4 => lines[at][0] = if kind == 'T' { b'Q' } else { b'T' },
        _ => {
            let moved = lines.remove(at);
            lines.push(moved);
        }
    }
    Some(lines.concat())
}

/// A script with a `p`, `f` or `g` line changed, or cut off soon after one. Nothing where it has
/// none.
pub fn script_line_changed(prng: &mut Prng, text: &[u8]) -> Option<Vec<u8>> {
    let (mut lines, at) = line_with(prng, text, b"pfg")?;
    if prng.chance(30) {
        lines.truncate(at + prng.pick(&[1, 2, 2, 3]));
    } else {
        let other = match lines[at][0] {
            b'p' => prng.pick(&["p\t32", "p\t32", "p\t31", "p", "p\t5\t5", "p\t3"]),
            _ => prng.pick(&["f\t0", "g\t5", "p\t32", "p\t5"]),
        };
        lines[at] = format!("{other}\n").into_bytes();
    }
    Some(lines.concat())
}

/// A pair in the words of a location: where its first part starts, its second, and its end.
type Place = [usize; 3];

/// Damages a pair in some location of a memory, where one is.
pub fn memory(prng: &mut Prng, words: &mut [u32]) -> bool {
    let mut places = Vec::new();
    for (location, words) in words.chunks_exact(MOST_WORDS).enumerate() {
        let mut pairs = Vec::new();
        if let Some(end) = value_end(words, 0, &mut pairs) {
            places.extend(pairs.into_iter().map(|pair| (location, end, pair)));
        }
    }
    if places.is_empty() {
        return false;
    }
    let (location, value_end, [first, second, end]) = prng.pick(&places);
    let words = &mut words[location * MOST_WORDS..][..MOST_WORDS];
    let mut new = words.to_vec();
    if prng.chance(15) {
        // the parts in the other order
        new[first..end].rotate_left(second - first);
    } else {
        let room = MOST_WORDS - value_end;
        new.splice(second..end, other_second(prng, &words[second..end], room));
        new.resize(MOST_WORDS, 0);
    }
    words.copy_from_slice(&new);
    true
}

/// The end of the value at a word, with its pairs.
fn value_end(words: &[u32], at: usize, pairs: &mut Vec<Place>) -> Option<usize> {
    match words.get(at)? {
        1 | 2 => Some(at + 2),
        3 | 4 => value_end(words, at + 1, pairs),
        5 => value_end(words, at + 2, pairs),
        6 => {
            let second = value_end(words, at + 1, pairs)?;
            let end = value_end(words, second, pairs)?;
            pairs.push([at + 1, second, end]);
            Some(end)
        }
        _ => None,
    }
}

/// What is put in the place of a second part, with so much room behind it: nothing, a value of
/// another type, the same with its last leaf of another type or with a label that isn't on the sheet,
/// or with so many lefts that the location would need 17 words.
fn other_second(prng: &mut Prng, second: &[u32], room: usize) -> Vec<u32> {
    match prng.below(7) {
        0 => Vec::new(),
        1 => prng.pick(&[&[1, 7][..], &[2, 3], &[3, 1, 7], &[5, 0, 1, 7], &[6, 1, 7, 1, 8]]).into(),
        2 | 3 => {
            let (before, leaf) = second.split_at(second.len() - 2);
            let other = if leaf[0] == 1 { [2, 1] } else { [1, 7] };
            [before, &other].concat()
        }
        4 => {
            let label = prng.pick(&[31, 32, 33, u32::MAX]);
            match second {
                [5, _, content @ ..] => [&[5, label], content].concat(),
                [tag @ (3 | 4), 5, _, content @ ..] => [&[*tag, 5, label], content].concat(),
                _ => vec![5, label, 1, 7],
            }
        }
        _ => [&vec![3; room + 1], second].concat(),
    }
}
