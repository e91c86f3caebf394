//! Demand 3 on generated cases: two done runs of an accepted script from memories that give a group
//! the same view leave memories that give it the same view. So do two rounds whose scripts are all
//! done. Under both rules of reading.

use crate::common::{case_count, round_count};
use crate::twice::{Left, Shown, Twice};
use compare::generate::alike::same_view;
use compare::generate::case::undamaged;
use compare::generate::prng::Prng;
use compare::generate::round::{self, RoundCase};
use compare::generate::script::Wrong;
use compare::implementation::TESTED;
use reference::evaluate::Context;
use reference::label::Reading;
use reference::machine::{self, Configuration};
use reference::memory::Memory;
use reference::principals::Principals;
use reference::script::Opening;
use reference::sheet::Sheet;
use reference::{flow, script_text, shape, view, DONE};
use std::rc::Rc;

/// A call that was made, from two memories that give its group the same view; the group is often one
/// principal.
fn pair(seed: u64, made: impl FnOnce(&mut Prng) -> (RoundCase, Sheet)) -> Option<Twice> {
    let prng = &mut Prng::new(seed);
    let (mut case, sheet) = made(prng);
    if prng.chance(50) {
        case.group = 1 << prng.below(sheet.principals);
    }
    Twice::new(seed, prng, case, sheet, same_view)
}

/// The same of one script.
fn run_pair(seed: u64, wrong: Wrong) -> Option<Twice> {
    pair(seed, |prng| {
        let (case, sheet) = undamaged(prng, wrong);
        (case.into(), sheet)
    })
}

/// The view of a memory by the implementation tested.
fn seen(sheet: &[u8], group: u16, memory: &[u32]) -> Vec<u32> {
    let mut view = vec![7; memory.len()];
    assert_eq!((TESTED.view)(sheet, memory, group, &mut view), DONE);
    view
}

/// What pairs of calls have to show, and how many of those that are compared the group would tell
/// apart by pooling, which its sheet doesn't let it do.
#[derive(Debug, Default)]
struct Looks {
    shown: Shown,
    kept_from_pooling: u64,
}

impl Looks {
    fn count(&mut self, twice: &Twice, left: Option<[Left; 2]>) {
        let case = &twice.case;
        self.kept_from_pooling += u64::from(left.is_some() && twice.would_tell_by_pooling());
        self.shown.count(twice, left, |words| seen(&case.sheet, case.group, words));
    }

    fn assert_rules(&self) {
        self.shown.assert_rules();
        assert!(self.kept_from_pooling * 20 > self.shown.differ, "{self:?}");
    }
}

#[test]
fn what_a_group_sees_follows_from_what_it_saw() {
    let mut looks = Looks::default();
    for seed in 0..case_count() {
        // scripts that pass over label conditions are accepted at times, and then may not leak either
        let wrong = if seed % 4 == 0 { Wrong::Labels } else { Wrong::Nothing };
        let Some(twice) = run_pair(seed, wrong) else {
            continue;
        };
        let case = &twice.case;
        let check = (TESTED.check)(&case.sheet, &case.scripts);
        if check == 4 || (check == 6 && wrong == Wrong::Labels) {
            continue;
        }
        assert_eq!(check, DONE, "seed {seed}: a script without damage is accepted or too long");
        looks.count(&twice, twice.runs(&TESTED));
    }
    println!("{looks:?}");
    looks.assert_rules();
    let shown = looks.shown;
    let Shown { pairs, compared, .. } = shown;
    assert!(pairs * 2 > case_count() && compared * 2 > pairs, "{shown:?}");
    assert!(shown.written * 20 > compared && shown.changed * 40 > compared, "{shown:?}");
    assert!(shown.stepped * 100 > compared && shown.started * 20 > compared, "{shown:?}");
    assert!(shown.paired * 10 > compared && shown.changed_by_pairs * 40 > compared, "{shown:?}");
}

#[test]
fn what_a_group_sees_after_a_round_follows_from_what_it_saw() {
    let mut looks = Looks::default();
    for seed in 0..round_count() {
        let Some(twice) = pair(seed, round::undamaged) else {
            continue;
        };
        looks.count(&twice, twice.rounds(&TESTED));
    }
    println!("{looks:?}");
    looks.assert_rules();
    let shown = looks.shown;
    let Shown { pairs, compared, .. } = shown;
    assert!(pairs * 2 > round_count() && compared * 3 > pairs, "{shown:?}");
    assert!(shown.several * 2 > compared, "{shown:?}");
    assert!(shown.written * 10 > compared && shown.changed * 20 > compared, "{shown:?}");
    assert!(shown.stepped * 50 > compared && shown.started * 10 > compared, "{shown:?}");
    assert!(shown.paired * 8 > compared && shown.changed_by_pairs * 20 > compared, "{shown:?}");
}

/// The memory that the reference leaves, label conditions passed over. A script that is refused for
/// its start alone has none: what it leaks is no secret of the memory.
fn left_unchecked(pair: &Twice, memory: &Memory) -> Option<Memory> {
    let sheet = &pair.sheet;
    let mut script = script_text::parse(sheet, &pair.case.scripts).ok()?;
    shape::check(sheet, &script.command).ok()?;
    script.opening = Opening::default();
    if flow::check(sheet, &script).is_ok() {
        return None;
    }
    let command = Rc::new(script.command);
    let context = Context { sheet, authority: Principals::from_bits(pair.case.authority) };
    let mut configuration = Configuration { memory: memory.clone(), command };
    machine::run(&context, &mut configuration, pair.case.budget).ok()?;
    Some(configuration.memory)
}

/// The pairs can tell: where scripts that are refused with 6 run all the same, views often differ.
#[test]
fn scripts_refused_by_their_labels_do_leak() {
    let (mut compared, mut leaks) = ([0; 2], [0; 2]);
    for seed in 0..4000 {
        let Some(pair) = run_pair(seed, Wrong::Labels) else {
            continue;
        };
        let group = Principals::from_bits(pair.case.group);
        let after = pair.memories.each_ref().map(|memory| left_unchecked(&pair, memory));
        if let [Some(first), Some(other)] = after {
            let rule = usize::from(pair.sheet.reading == Reading::Alone);
            compared[rule] += 1;
            let sees = |memory| view::words(&pair.sheet, memory, group);
            leaks[rule] += u64::from(sees(&first) != sees(&other));
        }
    }
    println!("{leaks:?} of {compared:?} runs of refused scripts leak, pooled and alone");
    for (leaks, compared) in leaks.into_iter().zip(compared) {
        assert!(compared > 100 && leaks * 20 > compared, "{leaks} of {compared}");
    }
}
