//! Damage to the line of a sheet that says how a group reads.

use super::damage::lines_of;
use super::prng::Prng;

const RULE: &str = "R\t1";

/// Lines that are nearly the one.
const NEARLY: &[&str] = &[
    "R\t0", "R\t2", "R\t01", "R\t10", "R\t+1", "R", "R\t1\t1", "R\t", "R\t1\t", "R\t1\r", "R\t 1",
    "R 1", "r\t1", "R1", "RR\t1",
];

/// A sheet with the line changed, there twice, before `P` or further down, behind a line of any of
/// the kinds.
pub fn rule(prng: &mut Prng, text: &[u8]) -> Vec<u8> {
    let mut lines = lines_of(text);
    let rule = || format!("{RULE}\n").into_bytes();
    if prng.chance(50) {
        lines.retain(|line| *line != rule());
        let nearly = prng.pick(NEARLY);
        lines.insert(1, format!("{nearly}\n").into());
        return lines.concat();
    }
    // at times there is then another in its place
    if prng.chance(50) {
        lines.retain(|line| *line != rule());
    }
    let kind = prng.pick(b"PRTQLOX");
    let behind = |at: &usize| lines[at - 1][0] == kind;
    let places: Vec<usize> = (1..=lines.len()).filter(behind).collect();
    match kind {
        b'P' => lines.insert(0, rule()),
        b'R' => drop(lines.splice(1..1, [rule(), rule()])),
        _ if places.is_empty() => lines.push(rule()),
        _ => lines.insert(prng.pick(&places), rule()),
    }
    lines.concat()
}
