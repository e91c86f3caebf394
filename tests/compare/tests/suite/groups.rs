//! The smallest groups of a label, on every implementation.

use crate::common::{groups_count, text, text_of, under, RULES};
use crate::fenced::Fenced;
use compare::generate::groups::{groups_case, two_of_four};
use compare::implementation::{ALL, TESTED};
use compare::workload::groups::EIGHT;
use reference::label::Reading;
use reference::{sheet_text, smallest_groups, Groups, DONE};

/// What a place holds before a call.
const JUNK: u16 = 0xa5a5;

/// A call on a slice of so many places and the slice it leaves, the same from every implementation.
fn listed(sheet: &[u8], label: u32, length: usize) -> (Groups, Vec<u16>) {
    let mut results = ALL.iter().map(|i| {
        let mut lent = Fenced::new(&vec![JUNK; length]);
        let groups = (i.groups)(sheet, label, lent.words_mut());
        assert!(lent.is_intact(), "{}: written beside the places", i.name);
        (i.name, (groups, lent.words().to_vec()))
    });
    let (first, result) = results.next().expect("an implementation");
    for (name, other) in results {
        let shown = sheet.escape_ascii();
        assert_eq!(other, result, "{name}, then {first}: label {label} of {shown}");
    }
    result
}

/// A label has these groups in a slice of just as many places and in longer ones, whose other
/// places are kept; with fewer places it is refused, and all are kept.
pub fn assert_groups(sheet: &[u8], label: u32, groups: &[u16]) {
    let count = groups.len();
    for more in [0, 1, 40] {
        let expected = [groups, &vec![JUNK; more]].concat();
        assert_eq!(
            listed(sheet, label, count + more),
            (Groups::listed(count as u32), expected),
            "label {label} of {}",
            sheet.escape_ascii()
        );
    }
    for length in [0, count / 2, count.saturating_sub(1)].into_iter().filter(|&l| l < count) {
        assert_refused(sheet, label, length, 12);
    }
}

fn assert_refused(sheet: &[u8], label: u32, length: usize, answer: u8) {
    let refused = (Groups { answer, count: 0 }, vec![JUNK; length]);
    let shown = sheet.escape_ascii();
    assert_eq!(listed(sheet, label, length), refused, "label {label} of {shown}, {length} places");
}

/// A sheet with labels of these effective readers, a set for each owner. An owner may stand in its
/// own set or not, and one who lets everyone read may have no policy: all of these mean the same.
fn sheet_of(labels: &[Vec<u16>]) -> Vec<u8> {
    let n = labels[0].len();
    let everyone = u16::MAX >> (16 - n);
    let mut lines = vec![format!("P {n}")];
    for (label, readers) in labels.iter().enumerate() {
        lines.push("L".to_string());
        for (owner, &readers) in readers.iter().enumerate() {
            let form = (label + owner) % 3;
            let listed = if form == 0 { readers & !(1 << owner) } else { readers };
            if readers != everyone || form == 1 {
                lines.push(format!("O {owner} {listed:04x} {:04x}", label as u16 & everyone));
            }
        }
    }
    text_of(&[&lines])
}

/// A sheet with one label, whose effective readers a function gives for each owner.
fn sheet_of_one(n: usize, readers: impl Fn(usize) -> u16) -> Vec<u8> {
    sheet_of(&[(0..n).map(readers).collect()])
}

/// A group reads a label when for every owner it holds at least one effective reader; or, by the
/// other rule, when one of its members is one for every owner. The empty group doesn't.
pub fn reads(rule: Reading, readers: &[u16], group: u16) -> bool {
    let reads_alone = |p: usize| readers.iter().all(|set| set >> p & 1 == 1);
    match rule {
        Reading::Pooled => group != 0 && readers.iter().all(|set| set & group != 0),
        Reading::Alone => (0..readers.len()).any(|p| group >> p & 1 == 1 && reads_alone(p)),
    }
}

/// Whether none of a group's proper subsets reads.
fn no_proper_subset_reads(rule: Reading, readers: &[u16], group: u16) -> bool {
    let smaller = |&set: &u16| Some(set.checked_sub(1)? & group);
    let mut subsets = std::iter::successors(smaller(&group), smaller);
    subsets.all(|subset| !reads(rule, readers, subset))
}

/// The definition, set by set: the groups that read while none of their proper subsets does.
fn by_definition(rule: Reading, readers: &[u16]) -> Vec<u16> {
    let everyone = u16::MAX >> (16 - readers.len());
    let smallest = |&g: &u16| reads(rule, readers, g) && no_proper_subset_reads(rule, readers, g);
    (0..=everyone).filter(smallest).collect()
}

/// Every label of n principals by its effective readers: any set that holds the owner, for each.
fn all_labels(n: usize) -> Vec<Vec<u16>> {
    let everyone = u16::MAX >> (16 - n);
    let sets = |owner: usize| (0..=everyone).filter(move |set| set >> owner & 1 == 1);
    (0..n).fold(vec![Vec::new()], |labels, owner| {
        let with = |label: &Vec<u16>, set| [&label[..], &[set]].concat();
        labels.iter().flat_map(|label| sets(owner).map(move |set| with(label, set))).collect()
    })
}

#[test]
fn every_label_of_up_to_four_principals() {
    for (n, count) in [(1, 1), (2, 4), (3, 64), (4, 4096)] {
        let labels = all_labels(n);
        assert_eq!(labels.len(), count);
        for labels in labels.chunks(32) {
            let sheets = RULES.map(|rule| (rule, under(rule, &sheet_of(labels))));
            for (label, readers) in labels.iter().enumerate() {
                for (rule, sheet) in &sheets {
                    assert_groups(sheet, label as u32, &by_definition(*rule, readers));
                }
            }
        }
    }
}

#[test]
fn the_scope_s_labels() {
    // {0: readers 1; 1: readers 0} and {0: 2; 1: 3} of four principals
    let lines =
        ["P 4", "L", "O 0 0002 0004", "O 1 0001 000c", "L", "O 0 0004 0000", "O 1 0008 0000"];
    let sheet = text(&lines);
    assert_groups(&sheet, 0, &[0b0001, 0b0010]);
    assert_groups(&sheet, 1, &[0b0011, 0b0110, 0b1001, 0b1100]);
}

#[test]
fn labels_that_everyone_reads_and_that_only_all_do() {
    for n in 1..=16 {
        let everyone = u16::MAX >> (16 - n);
        let singles: Vec<u16> = (0..n).map(|p| 1 << p).collect();
        assert_groups(&sheet_of_one(n, |_| everyone), 0, &singles);
        assert_groups(&text_of(&[&[format!("P {n}"), "L".to_string()]]), 0, &singles);
        assert_groups(&sheet_of_one(n, |owner| 1 << owner), 0, &[everyone]);
        for last in 0..n {
            // one owner keeps it to itself, the others let everyone read
            let alone = |owner| if owner == last { 1 << last } else { everyone };
            assert_groups(&sheet_of_one(n, alone), 0, &[1 << last]);
        }
    }
}

/// The sets of n principals that have so many members.
fn sets_of(n: usize, members: u32) -> Vec<u16> {
    (0..=u16::MAX >> (16 - n)).filter(|set| set.count_ones() == members).collect()
}

#[test]
fn any_two_and_the_first_or_all_others() {
    for n in 2..=16 {
        let everyone = u16::MAX >> (16 - n);
        // all but the next one
        let any_two = sheet_of_one(n, |owner| everyone & !(1 << ((owner + 1) % n)));
        assert_groups(&any_two, 0, &sets_of(n, 2));
        let or_the_first = |owner: usize| if owner == 0 { everyone } else { 1 | 1 << owner };
        assert_groups(&sheet_of_one(n, or_the_first), 0, &[1, everyone & !1]);
    }
}

#[test]
fn one_of_each_pair() {
    for n in (2..=16).step_by(2) {
        let sheet = sheet_of_one(n, |owner| 0b11 << (owner & !1));
        let one_each =
            |group: &u16| (0..n / 2).all(|pair| matches!(group >> (2 * pair) & 3, 1 | 2));
        let groups: Vec<u16> = sets_of(n, n as u32 / 2).into_iter().filter(one_each).collect();
        assert_eq!(groups.len(), 1 << (n / 2));
        assert_groups(&sheet, 0, &groups);
    }
}

#[test]
fn labels_of_sixteen_principals_with_many_groups() {
    let eights = |owner: usize| EIGHT[owner & 7] << (owner & 8);
    // found by a search that knew of no parts
    let found = [
        0x3003, 0x0303, 0x8c04, 0x808c, 0x40d0, 0x1125, 0x0cc8, 0x22d0, 0x9121, 0x1222, 0x2e18,
        0x4c18, 0x7300, 0x2122, 0x6221, 0x805c,
    ];
    let labels: [Vec<u16>; 3] =
        [(0..16).map(two_of_four).collect(), (0..16).map(eights).collect(), found.to_vec()];
    let sheet = sheet_of(&labels);
    for (label, count) in [1296, 1764, 1387].into_iter().enumerate() {
        let groups = by_definition(Reading::Pooled, &labels[label]);
        assert_eq!(groups.len(), count);
        assert_groups(&sheet, label as u32, &groups);
    }
}

#[test]
fn labels_that_one_or_the_last_ones_read() {
    // the first principal alone is enough, and without it a set needs all of the last owners
    for last in 1..16 {
        let readers = |owner: usize| if owner < 16 - last { 0xffff } else { 1 | 1 << owner };
        assert_groups(&sheet_of_one(16, readers), 0, &[1, 0xffff << (16 - last)]);
    }
}

/// What is asked of the groups of a label with these effective readers: they rise, each reads while
/// none of its proper subsets does, and no set reads without containing one of them.
fn assert_smallest(rule: Reading, readers: &[u16], groups: &[u16], seed: u64) {
    assert!(groups.windows(2).all(|pair| pair[0] < pair[1]), "seed {seed}: {groups:?}");
    for &group in groups {
        assert!(reads(rule, readers, group), "seed {seed}: {group:04x} doesn't read");
        let smallest = no_proper_subset_reads(rule, readers, group);
        assert!(smallest, "seed {seed}: {group:04x} isn't smallest");
    }
    let sets = 1 << readers.len();
    let mut contains = vec![false; sets];
    for &group in groups {
        contains[usize::from(group)] = true;
    }
    for set in 0..sets {
        let mut others = (0..readers.len()).map(|p| set & !(1 << p)).filter(|&less| less < set);
        contains[set] |= others.any(|less| contains[less]);
        assert_eq!(reads(rule, readers, set as u16), contains[set], "seed {seed}: {set:04x}");
    }
}

#[test]
fn generated_labels_have_all_of_their_smallest_groups_and_no_other() {
    let mut done = [0; 2];
    for seed in 0..groups_count() {
        let case = groups_case(seed);
        let mut places = case.places.clone();
        let Groups { answer, count } = (TESTED.groups)(&case.sheet, case.label, &mut places);
        if answer != DONE {
            continue;
        }
        let sheet = sheet_text::parse(&case.sheet).expect("a sheet of the form");
        done[usize::from(sheet.reading == Reading::Alone)] += 1;
        let label = &sheet.labels[case.label as usize];
        let readers = (0..sheet.principals).map(|owner| label.readers(owner).bits());
        let readers: Vec<u16> = readers.collect();
        assert_smallest(sheet.reading, &readers, &places[..count as usize], seed);
        let needed = smallest_groups(&sheet, case.label as usize).len();
        assert_eq!(count as usize, needed, "seed {seed}: the places said to be needed");
    }
    assert!(done.iter().all(|done| done * 6 > groups_count()), "{done:?} calls were done");
}
