//! Whole calls: a sheet, a script, a memory and the other arguments.

use super::prng::Prng;
use super::script::{Script, Wrong};
use super::trust::{self, Endorsed};
use super::{damage, memory, pool, script, sheet};
use reference::sheet::Sheet;
use reference::sheet_text;
use reference::types::{Type, INT};

/// The arguments of a check, a run and a view.
#[derive(Clone, Debug)]
pub struct Case {
    pub sheet: Vec<u8>,
    pub script: Vec<u8>,
    pub memory: Vec<u32>,
    pub authority: u16,
    pub budget: u32,
    pub group: u16,
    pub view_length: usize,
}

/// The case of a seed: nothing in it is damaged in about half of the seeds.
pub fn case(seed: u64) -> Case {
    let prng = &mut Prng::new(seed);
    let wrong = match prng.below(12) {
        0 => Wrong::Types,
        1..=3 => Wrong::Labels,
        _ => Wrong::Nothing,
    };
    let (mut case, sheet) = undamaged(prng, wrong);
    if prng.chance(35) {
        damage_some(prng, &mut case, &sheet);
    }
    case.budget = budget(prng, &case.script);
    case
}

/// A case in which nothing is damaged: the texts are of their form, the memory is well-formed where
/// every location's type has a value of 16 words, and the script is accepted but for what is `wrong`.
/// At times it is one of several unpacks.
pub fn undamaged(prng: &mut Prng, wrong: Wrong) -> (Case, Sheet) {
    if wrong == Wrong::Nothing && prng.chance(30) {
        return trust::undamaged(prng, Endorsed::Any);
    }
    let text = sheet::plan(prng).text().into_bytes();
    let sheet = sheet_text::parse(&text).expect("a sheet without damage is of the form");
    let size = match prng.below(40) {
        0 => prng.between(200, 400),
        1..=5 => prng.between(40, 100),
        _ => prng.between(1, 40),
    };
    let mut script = script::script(prng, &sheet, size, wrong, 40);
    match prng.below(50) {
        0 => lengthen(prng, &mut script),
        1 => nest(prng, &mut script.command),
        2 => pair_up(prng, &sheet, &mut script),
        _ => (),
    }
    let script = script.text();
    let memory = memory::memory(prng, &sheet);
    let case = Case {
        view_length: memory.len(),
        sheet: text,
        budget: budget(prng, &script),
        authority: pool::authority(prng, &sheet, &script),
        script,
        memory,
        group: pool::onlookers(prng, &sheet),
    };
    (case, sheet)
}

/// Puts `;` and `s` around the command of a script, which then has 511 to 514 lines.
fn lengthen(prng: &mut Prng, script: &mut Script) {
    let least = prng.between(510, 513);
    let pairs = least.saturating_sub(script.length()).div_ceil(2);
    script.command.splice(0..0, vec![";".to_string(); pairs]);
    script.command.extend(vec!["s".to_string(); pairs]);
}

/// Puts cases around a command, 9 at most.
fn nest(prng: &mut Prng, lines: &mut Vec<String>) {
    let most = 9usize.saturating_sub(lines.iter().filter(|line| *line == "c").count());
    for _ in 0..prng.between(most.min(5), most) {
        lines.splice(0..0, ["c", "l\t3", "i\t7"].map(String::from));
        lines.push("s".to_string());
    }
}

/// Puts an integer of a script into pairs inside one another, a part of each of which is taken: as
/// deep as the lines allow, where the sheet has a pair of integers.
fn pair_up(prng: &mut Prng, sheet: &Sheet, script: &mut Script) {
    let pair = sheet.types.iter().position(|ty| *ty == Type::Pair(INT, INT));
    let integer = script.command.iter().position(|line| line.starts_with("i\t"));
    let (Some(pair), Some(at)) = (pair, integer) else {
        return;
    };
    let (mut before, mut after) = (Vec::new(), Vec::new());
    let in_first = prng.pick(&[0, 50, 100]);
    for _ in 0..512usize.saturating_sub(script.length()) / 3 {
        let first = prng.chance(in_first);
        let integer = format!("i\t{}", prng.integer());
        before.extend([if first { "f" } else { "g" }.to_string(), format!("p\t{pair}")]);
        if first { &mut after } else { &mut before }.push(integer);
    }
    script.command.splice(at + 1..at + 1, after);
    script.command.splice(at..at, before);
}

/// A group of some of the first n principals.
pub(super) fn group(prng: &mut Prng, n: usize) -> u16 {
    let everyone = u16::MAX >> (16 - n);
    match prng.below(5) {
        0 => everyone,
        1 => 1 << prng.below(n),
        _ => prng.draw() as u16 & everyone,
    }
}

/// A budget that ends every run soon: only a script without a loop gets a large one.
pub(super) fn budget(prng: &mut Prng, script: &[u8]) -> u32 {
    let loops = script.split(|&b| b == b'\n').any(|line| line.starts_with(b"w"));
    match prng.below(8) {
        0 => 0,
        1 => prng.below(8) as u32,
        2 => prng.below(60) as u32,
        3 if !loops => u32::MAX,
        _ => prng.between(60, 600) as u32,
    }
}

/// Damages at least one part of a case, and each of the others at times.
fn damage_some(prng: &mut Prng, case: &mut Case, sheet: &Sheet) {
    let n = sheet.principals;
    let sure = prng.pick(&[0, 1, 1, 2, 2, 3, 4, 5, 6]);
    for part in 0..7 {
        if part != sure && !prng.chance(12) {
            continue;
        }
        match part {
            0 => case.sheet = damage::sheet(prng, &case.sheet),
            1 if prng.chance(10) => {
                case.script = damage::start_past_last(&case.script, sheet.labels.len());
            }
            1 => case.script = damage::script(prng, &case.script),
            2 => case.memory = damage::memory(prng, &case.memory),
            3 => case.authority |= beyond(prng, n),
            4 => case.group |= beyond(prng, n),
            5 => resize(prng, &mut case.memory),
            _ => case.view_length = other_length(prng, case.view_length),
        }
    }
}

/// A set with a principal that isn't among the first n, where there is one.
pub fn beyond(prng: &mut Prng, n: usize) -> u16 {
    if n == 16 {
        0
    } else {
        1 << prng.between(n, 15)
    }
}

fn other_length(prng: &mut Prng, length: usize) -> usize {
    match prng.below(5) {
        0 => 0,
        1 => length + 1,
        2 => length.saturating_sub(1),
        3 => length + 16,
        _ => length.saturating_sub(16),
    }
}

pub fn resize(prng: &mut Prng, memory: &mut Vec<u32>) {
    let length = other_length(prng, memory.len());
    memory.resize(length, prng.integer());
}
