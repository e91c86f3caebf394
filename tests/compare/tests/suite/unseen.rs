//! A group that can't read the starting label of an accepted script has the same view before and
//! after every run of it. So has one that can read none of the starting labels of a round's
//! scripts, before and after the round. On generated cases, for the groups of their sheets, under
//! both rules of reading, on every implementation.

use crate::common::{case_count, has_pairs, round_count, without_start};
use compare::generate::case::{undamaged, Case};
use compare::generate::prng::Prng;
use compare::generate::round::{self, RoundCase};
use compare::generate::script::Wrong;
use compare::generate::{case, damage};
use compare::implementation::{Implementation, ALL, TESTED};
use reference::calls::read_sheet;
use reference::label::{Label, Reading};
use reference::principals::Principals;
use reference::round_text::{parts, Part};
use reference::sheet::Sheet;
use reference::{script_text, DONE};
use std::collections::BTreeMap;

/// Every group of a sheet. Of more than eight principals: nobody, everyone, each alone, all but
/// each, and some more.
fn groups(prng: &mut Prng, n: usize) -> Vec<u16> {
    let everyone = u16::MAX >> (16 - n);
    if n <= 8 {
        return (0..=everyone).collect();
    }
    let alone = (0..n).map(|principal| 1 << principal);
    let drawn: Vec<u16> = (0..40).map(|_| prng.draw() as u16 & everyone).collect();
    let others = alone.clone().map(|one: u16| everyone & !one);
    [0, everyone].into_iter().chain(alone).chain(others).chain(drawn).collect()
}

/// Whether a group reads one of some labels.
fn reads_any(reading: Reading, labels: &[Label], group: u16) -> bool {
    labels.iter().any(|label| label.read_by(reading, Principals::from_bits(group)))
}

/// Those that can read none of some labels.
fn blind(prng: &mut Prng, sheet: &Sheet, labels: &[Label]) -> Vec<u16> {
    let blind = |&group: &u16| !reads_any(sheet.reading, labels, group);
    groups(prng, sheet.principals).into_iter().filter(blind).collect()
}

/// How many of the groups that can't read would if their members pooled.
fn kept_from_pooling(blind: &[u16], labels: &[Label]) -> u64 {
    let pools = |&&group: &&u16| reads_any(Reading::Pooled, labels, group);
    blind.iter().filter(pools).count() as u64
}

/// How many of these groups have a member: nobody reads nothing, so that its views are all zeros.
fn members(groups: &[u16]) -> u64 {
    groups.iter().filter(|&&group| group != 0).count() as u64
}

/// The answer of a view and its words.
fn seen(i: &Implementation, sheet: &[u8], group: u16, memory: &[u32]) -> (u8, Vec<u32>) {
    let mut view = vec![7; memory.len()];
    ((i.view)(sheet, memory, group, &mut view), view)
}

/// The groups to which two memories don't look the same.
fn tell(
    i: &Implementation,
    sheet: &[u8],
    groups: &[u16],
    before: &[u32],
    after: &[u32],
) -> Vec<u16> {
    let differs = |&&group: &&u16| seen(i, sheet, group, before) != seen(i, sheet, group, after);
    groups.iter().filter(differs).copied().collect()
}

/// A case, and the same with other authorities, budgets and memories, some of which are refused.
fn variants(prng: &mut Prng, case: &Case, n: usize) -> Vec<Case> {
    let everyone = u16::MAX >> (16 - n);
    let mut all = vec![case.clone(); 6];
    all[1].authority = everyone;
    all[2].authority = 0;
    all[2].budget = prng.below(6) as u32;
    all[3].authority |= case::beyond(prng, n);
    case::resize(prng, &mut all[4].memory);
    all[5].memory = damage::memory(prng, &case.memory);
    all
}

/// What runs have to show.
#[derive(Debug, Default)]
struct Shown {
    /// By answer, the runs of scripts with a `b` line that some group can't read.
    answers: BTreeMap<u8, u64>,
    /// Runs of these that change the memory, and the groups that look on.
    written: u64,
    looks: u64,
    /// Those of them whose script has pairs.
    paired: u64,
    /// Runs that change what some other group sees.
    seen: u64,
    /// Those that change the memory while a group looks on that would read the start by pooling,
    /// which its sheet doesn't let it do, and those on sheets that let it.
    kept_from_pooling: u64,
    pooled: u64,
}

impl Shown {
    /// Runs a case where its script is accepted. None of the groups may tell.
    fn run(&mut self, case: &Case, sheet: &Sheet, start: &Label, blind: &[u16], seed: u64) {
        for i in ALL.iter().filter(|i| (i.check)(&case.sheet, &case.script) == DONE) {
            let mut memory = case.memory.clone();
            let outcome =
                (i.run)(&case.sheet, &case.script, &mut memory, case.authority, case.budget);
            let told = tell(i, &case.sheet, blind, &case.memory, &memory);
            assert!(told.is_empty(), "{}, seed {seed}: {told:?} {outcome:?}", i.name);
            if members(blind) == 0 || i.name != TESTED.name {
                continue;
            }
            *self.answers.entry(outcome.answer).or_default() += 1;
            if memory != case.memory {
                self.written += 1;
                self.looks += members(blind);
                self.paired += u64::from(has_pairs(&case.script));
                let group = [case.group];
                let seen = tell(i, &case.sheet, &group, &case.memory, &memory);
                self.seen += seen.len() as u64;
                let kept = kept_from_pooling(blind, std::slice::from_ref(start)) > 0;
                self.kept_from_pooling += u64::from(kept);
                self.pooled += u64::from(sheet.reading == Reading::Pooled);
            }
        }
    }
}

#[test]
fn who_cannot_read_the_start_sees_no_run() {
    let cases = case_count() / 4;
    let mut shown = Shown::default();
    for seed in 0..cases {
        let prng = &mut Prng::new(seed);
        let wrong = if seed % 2 == 0 { Wrong::Nothing } else { Wrong::Labels };
        let (case, sheet) = undamaged(prng, wrong);
        let Ok(script) = script_text::parse(&sheet, &case.script) else {
            continue;
        };
        let start = script.opening.starting_label(&sheet);
        let blind = blind(prng, &sheet, std::slice::from_ref(&start));
        assert!(script.opening.start.is_some() || members(&blind) == 0, "anybody reads bottom");
        for case in variants(prng, &case, sheet.principals) {
            shown.run(&case, &sheet, &start, &blind, seed);
        }
    }
    println!("{shown:?}");
    let answers: Vec<u8> = shown.answers.keys().copied().collect();
    assert_eq!(answers, [0, 3, 7, 8, 9, 10]);
    assert!(shown.written * 6 > cases && shown.looks > cases, "{shown:?}");
    assert!(shown.paired * 20 > cases && shown.seen * 20 > cases, "{shown:?}");
    assert!(shown.kept_from_pooling * 40 > cases && shown.pooled * 20 > cases, "{shown:?}");
}

/// The groups can tell: scripts that are refused for their start alone, and run without it, show
/// it to groups that can't read it.
#[test]
fn scripts_refused_for_their_start_alone_would_show_it() {
    let (mut ran, mut told) = (0, 0);
    for seed in 0..4000 {
        let prng = &mut Prng::new(seed);
        let (case, sheet) = undamaged(prng, Wrong::Labels);
        let Some(bare) = without_start(&case.script) else {
            continue;
        };
        let answers = [&case.script, bare].map(|script| (TESTED.check)(&case.sheet, script));
        if answers != [6, DONE] {
            continue;
        }
        let mut memory = case.memory.clone();
        (TESTED.run)(&case.sheet, bare, &mut memory, case.authority, case.budget);
        if memory != case.memory {
            let script = script_text::parse(&sheet, &case.script).expect("it is refused with 6");
            let blind = blind(prng, &sheet, &[script.opening.starting_label(&sheet)]);
            ran += u64::from(members(&blind) > 0);
            let seeing = tell(&TESTED, &case.sheet, &blind, &case.memory, &memory);
            told += u64::from(!seeing.is_empty());
        }
    }
    println!("{told} of {ran} scripts would show their start");
    assert!(ran > 60 && told * 2 > ran, "{told} of {ran}");
}

/// A round and its sheet; nothing in half of the rounds is damaged.
fn round_and_sheet(seed: u64) -> Option<(RoundCase, Sheet)> {
    if seed.is_multiple_of(2) {
        return Some(round::undamaged(&mut Prng::new(seed)));
    }
    let case = round::round_case(seed);
    let sheet = read_sheet(&case.sheet).ok()?;
    Some((case, sheet))
}

/// The starting label of each script, where all are of the form.
fn starts(sheet: &Sheet, scripts: &[u8]) -> Option<Vec<Label>> {
    let start = |part: &Part| {
        let script = script_text::parse(sheet, part.text).ok()?;
        Some(script.opening.starting_label(sheet))
    };
    parts(scripts).iter().map(start).collect()
}

#[test]
fn who_can_read_none_of_the_starts_sees_no_round() {
    let rounds = round_count() / 2;
    let (mut blinded, mut written, mut paired, mut several, mut stopped) = (0, 0, 0, 0, 0);
    let (mut kept, mut pooled) = (0, 0);
    for seed in 0..rounds {
        let prng = &mut Prng::new(seed);
        let Some((case, sheet)) = round_and_sheet(seed) else {
            continue;
        };
        let Some(starts) = starts(&sheet, &case.scripts) else {
            continue;
        };
        let blind = blind(prng, &sheet, &starts);
        let everyone = u16::MAX >> (16 - sheet.principals);
        let runs = [(case.authority, case.budget), (everyone, prng.below(6) as u32)];
        for (i, (authority, budget)) in ALL.iter().flat_map(|i| runs.map(|run| (i, run))) {
            let mut memory = case.memory.clone();
            let round = (i.round)(&case.sheet, &case.scripts, &mut memory, authority, budget);
            let told = tell(i, &case.sheet, &blind, &case.memory, &memory);
            assert!(told.is_empty(), "{}, seed {seed}: {told:?} {round:?}", i.name);
            if i.name == TESTED.name && members(&blind) > 0 {
                let writes = memory != case.memory;
                blinded += 1;
                written += u64::from(writes);
                paired += u64::from(writes && has_pairs(&case.scripts));
                several += u64::from(writes && starts.len() > 1);
                stopped += u64::from(writes && round.answers.iter().any(|&a| a != DONE));
                kept += u64::from(writes && kept_from_pooling(&blind, &starts) > 0);
                pooled += u64::from(writes && sheet.reading == Reading::Pooled);
            }
        }
    }
    println!("{blinded} rounds, {written} write, {paired} with pairs, {several} of several, {stopped} with a stop");
    assert!(written * 20 > rounds && several * 40 > rounds, "{written}, {several} of {rounds}");
    assert!(stopped * 100 > rounds && paired * 40 > rounds, "{stopped}, {paired} of {rounds}");
    println!("{pooled} under the pooled rule, {kept} where a group is kept from pooling");
    assert!(pooled * 40 > rounds && kept * 80 > rounds, "{pooled}, {kept} of {rounds}");
}
