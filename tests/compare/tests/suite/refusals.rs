//! Demand 1 on generated cases: a refused call leaves every lent slice as it was.

use crate::common::{case_count, groups_count, has_pairs, round_count};
use crate::fenced::Fenced;
use compare::generate::case::case;
use compare::generate::groups::groups_case;
use compare::generate::round::round_case;
use compare::implementation::TESTED;
use reference::{parts, Groups, Round, DONE};
use std::collections::BTreeSet;

#[test]
fn a_refused_call_leaves_its_slices_untouched() {
    let (mut runs, mut paired, mut views) = (BTreeSet::new(), BTreeSet::new(), BTreeSet::new());
    for seed in 0..case_count() {
        let case = case(seed);
        let mut memory = Fenced::new(&case.memory);
        let outcome = (TESTED.run)(
            &case.sheet,
            &case.script,
            memory.words_mut(),
            case.authority,
            case.budget,
        );
        assert!(memory.is_intact(), "seed {seed}");
        if outcome.answer != DONE {
            runs.insert(outcome.answer);
            paired.extend(has_pairs(&case.script).then_some(outcome.answer));
            assert_eq!(memory.words(), case.memory, "seed {seed}");
        }
        match outcome.answer {
            1..=8 => assert_eq!(outcome.steps, 0, "seed {seed}"),
            9 => assert_eq!(outcome.steps, case.budget, "seed {seed}"),
            10 => assert!(outcome.steps < case.budget, "seed {seed}"),
            answer => {
                assert_eq!(answer, DONE, "seed {seed}");
                assert!(outcome.steps <= case.budget, "seed {seed}");
            }
        }
        let mut view = Fenced::blank(case.view_length);
        let before = view.words().to_vec();
        let answer = (TESTED.view)(&case.sheet, &case.memory, case.group, view.words_mut());
        assert!(view.is_intact(), "seed {seed}");
        if answer != DONE {
            views.insert(answer);
            assert_eq!(view.words(), before, "seed {seed}");
        }
    }
    assert_eq!(runs, paired, "every number comes with pairs too");
    assert_eq!(runs.into_iter().collect::<Vec<u8>>(), [1, 2, 3, 4, 5, 6, 7, 8, 9, 10]);
    assert_eq!(views.into_iter().collect::<Vec<u8>>(), [1, 2, 3, 7, 8]);
}

/// The places of a round that isn't refused, by its number of scripts and its budget.
fn assert_places(round: &Round, count: usize, budget: u32, seed: u64) {
    for (place, (&answer, &steps)) in round.answers.iter().zip(&round.steps).enumerate() {
        let said = match answer {
            _ if place >= count => (answer, steps) == (0, 0),
            DONE => steps <= budget,
            9 => steps == budget,
            10 => steps < budget,
            _ => false,
        };
        assert!(said, "seed {seed}, script {place} of {count}: {answer}, {steps} of {budget}");
    }
}

#[test]
fn a_refused_round_leaves_its_memory_and_has_zeros_in_every_place() {
    let (mut refused, mut paired, mut stopped) = (BTreeSet::new(), BTreeSet::new(), 0);
    for seed in 0..round_count() {
        let case = round_case(seed);
        let mut memory = Fenced::new(&case.memory);
        let (sheet, scripts) = (&case.sheet, &case.scripts);
        let round = (TESTED.round)(sheet, scripts, memory.words_mut(), case.authority, case.budget);
        assert!(memory.is_intact(), "seed {seed}");
        let count = parts(scripts).len();
        if round.answer != DONE {
            refused.insert(round.answer);
            paired.extend(has_pairs(scripts).then_some(round.answer));
            assert_eq!(round, Round::empty(round.answer), "seed {seed}");
            assert_eq!(memory.words(), case.memory, "seed {seed}");
        } else {
            assert_places(&round, count, case.budget, seed);
            if !round.answers[..count].contains(&DONE) {
                stopped += 1;
                assert_eq!(memory.words(), case.memory, "seed {seed}: no script was done");
            }
        }
    }
    assert_eq!(refused, paired, "every number comes with pairs too");
    assert_eq!(refused.into_iter().collect::<Vec<u8>>(), [1, 2, 3, 4, 5, 6, 7, 8, 11]);
    assert!(stopped * 100 > round_count(), "{stopped} rounds without a script that was done");
}

#[test]
fn a_refused_call_for_groups_leaves_its_places_and_counts_none() {
    let mut refused = BTreeSet::new();
    for seed in 0..groups_count() {
        let case = groups_case(seed);
        let mut places = Fenced::new(&case.places);
        let Groups { answer, count } = (TESTED.groups)(&case.sheet, case.label, places.words_mut());
        assert!(places.is_intact(), "seed {seed}");
        if answer != DONE {
            refused.insert(answer);
            assert_eq!(count, 0, "seed {seed}");
            assert_eq!(places.words(), case.places, "seed {seed}");
        } else {
            let kept = places.words().get(count as usize..).expect("no more groups than places");
            assert_eq!(kept, &case.places[count as usize..], "seed {seed}");
        }
    }
    assert_eq!(refused.into_iter().collect::<Vec<u8>>(), [1, 2, 12]);
}
