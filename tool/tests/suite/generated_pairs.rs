//! Generated scripts and memories with pairs: what is told of them is so.

use crate::folder::Folder;
use crate::json::Json;
use crate::tool::simp;
use compare::generate::case::{case, Case};
use compare::generate::program_input::sheet_and_scripts;
use reference::machine::Stopped;
use reference::memory_text;
use reference::value::{padded, Value};
use reference::Reason;
use simp::message::message;
use simp::names::Names;
use simp::words::Words;
use std::collections::BTreeMap;

/// The number that stands after a text, up to what isn't a digit.
fn number_after(text: &str, before: &str) -> Option<usize> {
    let (_, rest) = text.split_once(before)?;
    rest.split(|c: char| !c.is_ascii_digit()).next()?.parse().ok()
}

/// A line of a script, counted from 1.
fn line(script: &[u8], number: usize) -> &[u8] {
    script.split(|&byte| byte == b'\n').nth(number - 1).unwrap_or_default()
}

/// The lines that are told make a pair and take a part of one, after the line that the flow goes
/// into or, by a binding, anywhere.
#[test]
fn the_pairs_of_a_flow_are_the_script_s() {
    let mut counts = BTreeMap::new();
    for seed in 70_000..76_000 {
        let (text, scripts) = sheet_and_scripts(seed);
        let Ok(sheet) = reference::calls::read_sheet(&text) else {
            continue;
        };
        for script in &scripts {
            let Err(reason @ Reason::Labels(_)) = &reference::try_check(&text, script) else {
                continue;
            };
            let plain = message(reason, Some(&sheet), &Names::default());
            let told = plain.clone().with_pair(reason, script, &sheet);
            let note = told.fact.strip_prefix(&plain.fact[..]).expect("the fact stands first");
            let made = number_after(note, "the pair made in line ");
            let taken = number_after(note, " takes in line ");
            assert_eq!(note.is_empty(), made.or(taken).is_none(), "seed {seed}: {told}");
            assert!(made.is_none_or(|at| line(script, at).starts_with(b"p\t")), "{told}");
            let taker = if note.contains("`f`") { b"f" } else { b"g" };
            assert!(taken.is_none_or(|at| line(script, at) == taker), "seed {seed}: {told}");
            *counts.entry((made.is_some(), taken.is_some())).or_insert(0) += 1;
        }
    }
    let kinds = [(false, false), (false, true), (true, false), (true, true)];
    assert!(kinds.iter().all(|kind| counts.get(kind) > Some(&9)), "{counts:?}");
}

/// What a run is asked for, in a folder.
fn run(folder: &Folder, case: &Case, budget: u32) -> String {
    folder.write("sheet", &case.sheet);
    folder.write("script", &case.script);
    folder.write("memory", &memory_text::print(&case.memory));
    let members = (0..16).filter(|p| case.authority >> p & 1 == 1).map(|p| p.to_string());
    let authority = format!("--as={}", members.collect::<Vec<_>>().join(","));
    let budget = format!("--budget={budget}");
    simp(folder, &["run", "sheet", "script", "memory", &authority, &budget]).out
}

/// Of a pair that is too long both parts are told, and with its own word they add up.
#[test]
fn the_parts_of_a_long_pair_add_up() {
    let folder = Folder::new("generated-long-pairs");
    let (mut pairs, mut others) = (0, 0);
    for seed in 0..40_000 {
        let case = case(seed);
        let (mut memory, budget) = (case.memory.clone(), case.budget.min(1000));
        let Case { sheet, script, authority, .. } = &case;
        let stopped = reference::try_run(sheet, script, &mut memory, *authority, budget);
        let Err(Reason::Stopped(Stopped::TooLong { at, .. })) = stopped else {
            continue;
        };
        let is_pair = line(script, at.line).starts_with(b"p\t");
        if !is_pair && others >= 20 || pairs >= 60 {
            continue;
        }
        let out = run(&folder, &case, budget);
        let words = number_after(&out, " a value takes ");
        assert_eq!((words, out.contains("it is a pair")), (Some(at.words), is_pair), "{out}");
        if is_pair {
            let first = number_after(&out, "it is a pair, with ").expect("a first part");
            let second = number_after(&out, " in its first part, ").expect("a second part");
            assert_eq!(first + second + 1, at.words, "seed {seed}: {out}");
            assert!(first <= 16 && second <= 16, "seed {seed}: {out}");
        }
        *(if is_pair { &mut pairs } else { &mut others }) += 1;
    }
    assert!(pairs > 10 && others > 10, "{pairs} pairs, {others} others");
}

/// A value is told as the memory's words have it, and where contents are hidden without them.
#[test]
fn what_is_shown_is_what_the_words_say() {
    let folder = Folder::new("generated-shown-pairs");
    let (mut pairs, mut hidden) = (0, 0);
    for seed in 0..1500 {
        let Case { sheet: text, memory, group, .. } = case(seed);
        let Ok(sheet) = reference::calls::read_sheet(&text) else {
            continue;
        };
        let mut view = vec![0; memory.len()];
        if !memory.contains(&6) || reference::view(&text, &memory, group, &mut view) != 0 {
            continue;
        }
        folder.write("sheet", &text);
        folder.write("memory", &memory_text::print(&memory));
        let members = (0..16).filter(|p| group >> p & 1 == 1).map(|p| p.to_string());
        let group = format!("--to={}", members.collect::<Vec<_>>().join(","));
        let json = Json::read(&simp(&folder, &["show", "sheet", "memory", &group, "--json"]).out);
        let Json::List(locations) = json.at("locations") else { panic!("{json:?}") };
        let words = Words { sheet: &sheet, names: &Names::default() };
        for (location, (shown, held)) in locations.iter().zip(memory.chunks(16)).enumerate() {
            let Json::Text(told) = shown.at("value") else {
                continue;
            };
            let whole = Value::decode(held, sheet.labels.len()).expect("a value");
            assert_eq!(held, padded(whole.words()));
            let is_hidden = shown.at("content_hidden") == &Json::Bool(true);
            assert_eq!(told.contains("hidden content"), is_hidden, "seed {seed}: {told}");
            assert!(!told.contains("no value"), "seed {seed}: {told}");
            assert_eq!(*told == words.value(&whole), !is_hidden, "{seed}, {location}: {told}");
            pairs += usize::from(told.starts_with('('));
            hidden += usize::from(told.starts_with('(') && is_hidden);
        }
    }
    assert!(pairs > 300 && hidden > 30, "{pairs} pairs, {hidden} with hidden contents");
}
