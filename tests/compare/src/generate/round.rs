//! Whole rounds: a sheet, scripts in one text, a memory and the other arguments.

use super::case::{beyond, budget, resize, Case};
use super::prng::Prng;
use super::script::{Script, Wrong};
use super::trust::{self, Endorsed};
use super::{damage, memory, pool, script, sheet};
use reference::calls::accepted_script;
use reference::sheet::Sheet;
use reference::sheet_text;

/// The arguments of a round, and a group that looks on.
#[derive(Clone, Debug)]
pub struct RoundCase {
    pub sheet: Vec<u8>,
    pub scripts: Vec<u8>,
    pub memory: Vec<u32>,
    pub authority: u16,
    pub budget: u32,
    pub group: u16,
}

/// The round of a single script.
impl From<Case> for RoundCase {
    fn from(case: Case) -> RoundCase {
        let Case { sheet, script, memory, authority, budget, group, .. } = case;
        RoundCase { sheet, scripts: script, memory, authority, budget, group }
    }
}

/// The round of a seed: nothing in it is damaged in about 40 of a hundred seeds.
pub fn round_case(seed: u64) -> RoundCase {
    let prng = &mut Prng::new(seed);
    let (mut case, sheet, mut scripts) = parted(prng);
    if prng.chance(10) {
        scripts.resize(prng.pick(&[33, 33, 33, 34, 40, 64, 300]), b"s\n".to_vec());
    }
    if prng.chance(30) {
        spoil_some(prng, &sheet, &mut scripts);
    }
    case.scripts =
        if prng.chance(10) { badly_joined(prng, &scripts) } else { scripts.join(&b'\n') };
    if prng.chance(5) {
        case.scripts = damage::script(prng, &case.scripts);
    }
    if prng.chance(25) {
        damage_some(prng, &mut case, sheet.principals);
    }
    case.budget = budget(prng, &case.scripts);
    case
}

/// A round of 1 to 32 scripts in which nothing is damaged: the scripts are accepted, and the memory
/// is well-formed where every location's type has a value of 16 words.
pub fn undamaged(prng: &mut Prng) -> (RoundCase, Sheet) {
    let (mut case, sheet, scripts) = parted(prng);
    case.scripts = scripts.join(&b'\n');
    case.budget = budget(prng, &case.scripts);
    (case, sheet)
}

/// The same with its scripts apart, at times of several unpacks each.
fn parted(prng: &mut Prng) -> (RoundCase, Sheet, Vec<Vec<u8>>) {
    if prng.chance(20) {
        return trust::parted(prng, Endorsed::Any);
    }
    let text = sheet::plan(prng).text().into_bytes();
    let sheet = sheet_text::parse(&text).expect("a sheet without damage is of the form");
    let scripts = scripts(prng, &sheet);
    let case = RoundCase {
        sheet: text,
        scripts: Vec::new(),
        memory: memory::memory(prng, &sheet),
        authority: pool::authority(prng, &sheet, &scripts.concat()),
        budget: 0,
        group: pool::onlookers(prng, &sheet),
    };
    (case, sheet, scripts)
}

/// 1 to 32 scripts, the shorter the more there are; in some rounds some of them stop, in some all
/// name a starting label, and in a few all have as many lines as a script may have.
fn scripts(prng: &mut Prng, sheet: &Sheet) -> Vec<Vec<u8>> {
    let (count, most_lines) = match prng.below(20) {
        0 => (32, 8),
        1 => (31, 8),
        2 | 3 => (prng.between(6, 30), 8),
        4 | 5 => (1, 40),
        _ => (prng.between(2, 5), 24),
    };
    let stopping = if prng.chance(40) { 30 } else { 0 };
    let starting = prng.pick(&[0, 40, 100]);
    let long = prng.chance(if count > 16 { 10 } else { 1 });
    let mut scripts = Vec::new();
    for _ in 0..count {
        let size = prng.between(1, most_lines);
        let mut script = script::script(prng, sheet, size, Wrong::Nothing, starting);
        if prng.chance(stopping) {
            stop(prng, sheet, &mut script.command);
        }
        if long {
            fill(&mut script);
        }
        scripts.push(script.text());
    }
    scripts
}

/// Puts behind a command one that doesn't end, or one whose value is too long where the authority
/// writes the label it is packed with.
fn stop(prng: &mut Prng, sheet: &Sheet, lines: &mut Vec<String>) {
    lines.insert(0, ";".to_string());
    let last: Vec<String> = if sheet.labels.is_empty() || prng.chance(50) {
        ["w", "l\t3", "i\t0", "s"].map(String::from).into()
    } else {
        let pack = format!("k\t{}", prng.below(sheet.labels.len()));
        let packs = vec![pack; 5];
        [vec!["c".to_string()], packs, ["i\t1", "s", "s"].map(String::from).into()].concat()
    };
    lines.extend(last);
}

/// Puts `;` and `s` before the command of a script, which then has 511 or 512 lines.
fn fill(script: &mut Script) {
    let pairs = 512usize.saturating_sub(script.length()) / 2;
    let before = [";", "s"].repeat(pairs);
    script.command.splice(0..0, before.into_iter().map(String::from));
}

/// Puts scripts that are mostly refused in the place of one to five.
fn spoil_some(prng: &mut Prng, sheet: &Sheet, scripts: &mut [Vec<u8>]) {
    for _ in 0..prng.pick(&[1, 1, 1, 2, 3, 5]) {
        let at = prng.below(scripts.len());
        scripts[at] = spoilt(prng, sheet, &scripts[at]);
    }
}

fn spoilt(prng: &mut Prng, sheet: &Sheet, text: &[u8]) -> Vec<u8> {
    match prng.below(24) {
        0 => Vec::new(),
        1 => prng.pick(&[&b"\t\n"[..], b" \n", b"\r\n", b"\0\n"]).to_vec(),
        2 => b"s\n".repeat(prng.pick(&[8192, 8193, 20_000])),
        3 => text.strip_suffix(b"\n").unwrap_or(text).to_vec(),
        4 | 5 => damage::script(prng, text),
        6..=9 => damage::opening(prng, text),
        10..=15 => refused(prng, sheet, Wrong::Types),
        _ => refused(prng, sheet, Wrong::Labels),
    }
}

/// A script that isn't accepted, where one is found soon.
fn refused(prng: &mut Prng, sheet: &Sheet, wrong: Wrong) -> Vec<u8> {
    let mut text = Vec::new();
    for _ in 0..8 {
        let size = prng.between(2, 24);
        text = script::script(prng, sheet, size, wrong, 40).text();
        if accepted_script(sheet, &text).is_err() {
            break;
        }
    }
    text
}

/// The text of scripts with something else than an empty line around or between some of them.
fn badly_joined(prng: &mut Prng, scripts: &[Vec<u8>]) -> Vec<u8> {
    let around: &[&[u8]] = &[b"", b"", b"\n", b"\n\n", b"\t\n", b" \n"];
    let between: &[&[u8]] = &[b"\n", b"\n", b"", b"\n\n", b"\t\n", b" \n", b"\r\n", b"\t"];
    let mut text = prng.pick(around).to_vec();
    for (place, script) in scripts.iter().enumerate() {
        if place > 0 {
            let parting = if prng.chance(80) { b"\n" } else { prng.pick(between) };
            text.extend(parting);
        }
        text.extend(script);
    }
    text.extend(prng.pick(around));
    if prng.chance(20) {
        text.pop();
    }
    text
}

/// Damages at least one of the other arguments, and each of the others at times.
fn damage_some(prng: &mut Prng, case: &mut RoundCase, n: usize) {
    let sure = prng.pick(&[0, 1, 2, 2, 2, 3, 3]);
    for part in 0..4 {
        if part != sure && !prng.chance(20) {
            continue;
        }
        match part {
            0 => case.sheet = damage::sheet(prng, &case.sheet),
            1 => case.authority |= beyond(prng, n),
            2 => case.memory = damage::memory(prng, &case.memory),
            _ => resize(prng, &mut case.memory),
        }
    }
}
