//! Inputs of the program show and of the tool.

use super::case::undamaged;
use super::prng::Prng;
use super::script::Wrong;
use super::{damage, script, sheet};
use reference::{memory_text, sheet_text};

/// An input of *show*: a sheet, a memory and a group, damaged in a third of the seeds.
pub fn show_input(seed: u64) -> Vec<u8> {
    let prng = &mut Prng::new(seed);
    let (mut case, _) = undamaged(prng, Wrong::Nothing);
    if prng.chance(8) {
        case.sheet = damage::sheet(prng, &case.sheet);
    }
    if prng.chance(15) {
        case.memory = damage::memory(prng, &case.memory);
    }
    if prng.chance(8) {
        case.group = prng.draw() as u16;
    }
    let texts = vec![case.sheet, memory_text::print(&case.memory), set(case.group)];
    input(prng, texts)
}

/// A sheet and scripts for it, of which some are refused.
pub fn sheet_and_scripts(seed: u64) -> (Vec<u8>, Vec<Vec<u8>>) {
    let prng = &mut Prng::new(seed);
    let text = sheet::plan(prng).text().into_bytes();
    let parsed = sheet_text::parse(&text).expect("a sheet without damage is of the form");
    let mut scripts = Vec::new();
    for wrong in [Wrong::Nothing, Wrong::Types, Wrong::Labels, Wrong::Nothing] {
        let size = prng.between(1, 60);
        scripts.push(script::script(prng, &parsed, size, wrong, 40).text());
    }
    scripts[3] = damage::script_lines(prng, &scripts[3]);
    if prng.chance(25) {
        scripts[0] = damage::opening(prng, &scripts[0]);
    }
    let text = if prng.chance(20) { damage::sheet(prng, &text) } else { text };
    (text, scripts)
}

fn set(bits: u16) -> Vec<u8> {
    format!("{bits:04x}\n").into_bytes()
}

/// Texts parted by empty lines, with damage to the input as a whole at times.
fn input(prng: &mut Prng, texts: Vec<Vec<u8>>) -> Vec<u8> {
    if prng.chance(25) {
        damage::input(prng, texts)
    } else {
        texts.join(&b'\n')
    }
}
