//! The lean version, and the library where it is linked, against the reference, on
//! generated cases.
//!
//! They must agree in answer, steps, count and every word of every slice, refused calls included.

use crate::common::{case_count, groups_count, round_count, trust_count};
use crate::fenced::Fenced;
use compare::generate::case::{case, Case};
use compare::generate::groups::{groups_case, GroupsCase};
use compare::generate::round::{round_case, RoundCase};
use compare::generate::trust::trust_case;
use compare::implementation::{Implementation, REFERENCE};
use reference::{Groups, Outcome, Round, Trust};

/// Everything that the four calls of a case hand back.
#[derive(Debug, PartialEq, Eq)]
struct Results {
    check: u8,
    trust: Trust,
    run: Outcome,
    memory: Vec<u32>,
    view_answer: u8,
    view: Vec<u32>,
    /// The memory that the view was lent, and the bytes beside every slice, are as before.
    intact: bool,
}

fn results(i: &Implementation, case: &Case) -> Results {
    let check = (i.check)(&case.sheet, &case.script);
    let trust = (i.trust)(&case.sheet, &case.script);
    let mut ran = Fenced::new(&case.memory);
    let run = (i.run)(&case.sheet, &case.script, ran.words_mut(), case.authority, case.budget);
    let lent = Fenced::new(&case.memory);
    let mut view = Fenced::blank(case.view_length);
    let view_answer = (i.view)(&case.sheet, lent.words(), case.group, view.words_mut());
    let intact =
        ran.is_intact() && view.is_intact() && lent.is_intact() && lent.words() == case.memory;
    Results {
        check,
        trust,
        run,
        memory: ran.words().to_vec(),
        view_answer,
        view: view.words().to_vec(),
        intact,
    }
}

/// A case as it can be read in a failure.
fn shown(case: &Case) -> String {
    format!(
        "authority {:04x}, group {:04x}, budget {}, view of {} words\n{}---\n{}---\n{:?}",
        case.authority,
        case.group,
        case.budget,
        case.view_length,
        String::from_utf8_lossy(&case.sheet),
        String::from_utf8_lossy(&case.script),
        case.memory.chunks(16).collect::<Vec<&[u32]>>(),
    )
}

fn agrees_with_the_reference(tested: &Implementation) {
    for seed in 0..case_count() {
        let case = case(seed);
        let expected = results(&REFERENCE, &case);
        let got = results(tested, &case);
        assert!(got.intact, "seed {seed}: written beside a slice\n{}", shown(&case));
        assert_eq!(
            got,
            expected,
            "seed {seed} ({}, then reference)\n{}",
            tested.name,
            shown(&case)
        );
    }
}

/// The same case after its run: the memory left by one call is what the next is lent.
fn agrees_on_the_memory_that_a_run_leaves(tested: &Implementation) {
    let mut done = 0;
    for seed in 0..case_count() / 4 {
        let mut case = case(seed);
        let first = results(&REFERENCE, &case);
        case.memory = first.memory;
        if first.run.answer != 0 {
            continue;
        }
        done += 1;
        let expected = results(&REFERENCE, &case);
        assert_ne!(expected.run.answer, 8, "seed {seed}: a run leaves a well-formed memory");
        assert_eq!(results(tested, &case), expected, "seed {seed}\n{}", shown(&case));
    }
    assert!(done * 10 > case_count() / 4, "{done} runs were done");
}

/// What a round hands back, the memory it leaves, and whether the bytes beside that are as before.
fn round_results(i: &Implementation, case: &RoundCase) -> (Round, Vec<u32>, bool) {
    let mut lent = Fenced::new(&case.memory);
    let (sheet, scripts) = (&case.sheet, &case.scripts);
    let round = (i.round)(sheet, scripts, lent.words_mut(), case.authority, case.budget);
    (round, lent.words().to_vec(), lent.is_intact())
}

fn agrees_on_rounds(tested: &Implementation) {
    for seed in 0..round_count() {
        let case = round_case(seed);
        let (got, expected) = (round_results(tested, &case), round_results(&REFERENCE, &case));
        assert!(got.2, "seed {seed}: written beside the memory");
        assert_eq!(
            got,
            expected,
            "seed {seed} ({}, then reference)\nauthority {:04x}, budget {}\n{}---\n{}---\n{:?}",
            tested.name,
            case.authority,
            case.budget,
            String::from_utf8_lossy(&case.sheet),
            String::from_utf8_lossy(&case.scripts),
            case.memory.chunks(16).collect::<Vec<&[u32]>>(),
        );
    }
}

/// What a call for groups hands back, the slice it leaves, and whether the bytes beside that are as
/// before.
fn groups_results(i: &Implementation, case: &GroupsCase) -> (Groups, Vec<u16>, bool) {
    let mut lent = Fenced::new(&case.places);
    let groups = (i.groups)(&case.sheet, case.label, lent.words_mut());
    (groups, lent.words().to_vec(), lent.is_intact())
}

fn agrees_on_groups(tested: &Implementation) {
    for seed in 0..groups_count() {
        let case = groups_case(seed);
        let (got, expected) = (groups_results(tested, &case), groups_results(&REFERENCE, &case));
        assert!(got.2, "seed {seed}: written beside the places");
        assert_eq!(
            got,
            expected,
            "seed {seed} ({}, then reference)\nlabel {}, {} places\n{}",
            tested.name,
            case.label,
            case.places.len(),
            String::from_utf8_lossy(&case.sheet),
        );
    }
}

/// The answer is that of a check too, and beside another than 0 no script is trust-keeping.
fn agrees_on_trust(tested: &Implementation) {
    for seed in 0..trust_count() {
        let case = trust_case(seed);
        let (sheet, script) = (&case.sheet, &case.script);
        let [got, expected] = [tested, &REFERENCE].map(|i| (i.trust)(sheet, script));
        let texts = [sheet, script].map(|text| String::from_utf8_lossy(text));
        let shown = || format!("seed {seed} ({})\n{}---\n{}", tested.name, texts[0], texts[1]);
        assert_eq!(got, expected, "{}", shown());
        assert_eq!(got.answer, (tested.check)(sheet, script), "{}", shown());
        assert!(got.keeping == 0 || (got.answer, got.keeping) == (0, 1), "{}", shown());
    }
}

mod lean {
    use compare::implementation::LEAN;

    #[test]
    fn agrees_with_the_reference() {
        super::agrees_with_the_reference(&LEAN);
    }

    #[test]
    fn agrees_on_the_memory_that_a_run_leaves() {
        super::agrees_on_the_memory_that_a_run_leaves(&LEAN);
    }

    #[test]
    fn agrees_on_rounds() {
        super::agrees_on_rounds(&LEAN);
    }

    #[test]
    fn agrees_on_groups() {
        super::agrees_on_groups(&LEAN);
    }

    #[test]
    fn agrees_on_trust() {
        super::agrees_on_trust(&LEAN);
    }
}

#[cfg(feature = "library")]
mod library {
    use compare::implementation::LIBRARY;

    #[test]
    fn agrees_with_the_reference() {
        super::agrees_with_the_reference(&LIBRARY);
    }

    #[test]
    fn agrees_on_the_memory_that_a_run_leaves() {
        super::agrees_on_the_memory_that_a_run_leaves(&LIBRARY);
    }

    #[test]
    fn agrees_on_rounds() {
        super::agrees_on_rounds(&LIBRARY);
    }

    #[test]
    fn agrees_on_groups() {
        super::agrees_on_groups(&LIBRARY);
    }

    #[test]
    fn agrees_on_trust() {
        super::agrees_on_trust(&LIBRARY);
    }
}
