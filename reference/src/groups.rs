//! The call that lists the smallest groups of a label: those that read it while none of their
//! proper subsets does.

use crate::answer::Groups;
use crate::calls::{known_label, read_sheet};
use crate::label::{Label, Reading};
use crate::principals::Principals;
use crate::reason::Reason;
use crate::sheet::{LabelId, Sheet};

/// Lists the smallest groups that read a label, rising as numbers, in the first places of a slice;
/// the places after them stay as they were. A refusal leaves every place as it was.
pub fn groups(sheet: &[u8], label: u32, groups: &mut [u16]) -> Groups {
    match try_groups(sheet, label, groups) {
        Ok(count) => Groups::listed(count),
        Err(reason) => Groups::refused(reason.refusal()),
    }
}

/// The same, with the count of the groups, or why they aren't listed.
pub fn try_groups(sheet: &[u8], label: u32, groups: &mut [u16]) -> Result<u32, Reason> {
    let sheet = read_sheet(sheet)?;
    let smallest = smallest_groups(&sheet, known_label(&sheet, label)?);
    let (found, wanted) = (groups.len(), smallest.len());
    if found < wanted {
        return Err(Reason::Places { found, wanted });
    }
    for (place, group) in groups.iter_mut().zip(smallest) {
        *place = group.bits();
    }
    Ok(wanted as u32)
}

/// The smallest groups that read a label of the sheet, rising as numbers.
pub fn smallest_groups(sheet: &Sheet, label: LabelId) -> Vec<Principals> {
    let label = &sheet.labels[label];
    match sheet.reading {
        Reading::Pooled => smallest_pools(label),
        Reading::Alone => single_readers(label),
    }
}

/// Each principal alone that is an effective reader for every owner: a group that reads holds such
/// a one, who reads by himself. There may be none.
fn single_readers(label: &Label) -> Vec<Principals> {
    let readers = (0..label.principals()).filter(|&principal| label.has_reader(principal));
    readers.map(Principals::only).collect()
}

/// The smallest groups that together read a label.
///
/// A group reads the label when it meets the readers of every owner. So the groups are built owner
/// by owner: they are at each point the smallest ones that meet the readers of the owners so far.
fn smallest_pools(label: &Label) -> Vec<Principals> {
    let owners = (0..label.principals()).map(|owner| label.readers(owner));
    // without an owner to meet, nobody is enough
    let nobody = Principals::first(0);
    let mut smallest = owners.fold(vec![nobody], and_meet);
    smallest.sort_by_key(|group| group.bits());
    smallest
}

/// From the smallest groups that meet some sets, the smallest that meet these readers too.
///
/// A group that meets them stays. One that misses them needs one of them, and each makes a group
/// that meets all: it is among the smallest unless it contains one that stayed. It can't contain
/// another that was made, since the two would have the same new member and, without it, be two of
/// the smallest of which one contains the other.
fn and_meet(smallest: Vec<Principals>, readers: Principals) -> Vec<Principals> {
    let (stay, miss): (Vec<_>, Vec<_>) =
        smallest.into_iter().partition(|group| group.meets(readers));
    let with_one =
        |group: Principals| readers.members().map(move |p| group.union(Principals::only(p)));
    let made = miss.into_iter().flat_map(with_one);
    let new: Vec<Principals> =
        made.filter(|made| !stay.iter().any(|&group| made.contains(group))).collect();
    [stay, new].concat()
}

#[cfg(test)]
mod tests {
    use super::{groups, smallest_groups, try_groups};
    use crate::answer::Groups;
    use crate::label::{Label, Policy, Reading};
    use crate::principals::Principals;
    use crate::reason::Reason;
    use crate::sheet::Sheet;

    /// A sheet with the label of these effective readers, one set for each owner.
    fn sheet(reading: Reading, readers: &[u16]) -> Sheet {
        let policies = readers.iter().enumerate().map(|(owner, &readers)| Policy {
            owner,
            readers: Principals::from_bits(readers),
            writers: Principals::first(0),
        });
        let label = Label::of_policies(readers.len(), &policies.collect::<Vec<Policy>>());
        let principals = readers.len();
        let (labels, types, locations) = (vec![label], Vec::new(), Vec::new());
        Sheet { principals, reading, types, labels, locations }
    }

    fn smallest_by(reading: Reading, readers: &[u16]) -> Vec<u16> {
        smallest_groups(&sheet(reading, readers), 0).into_iter().map(Principals::bits).collect()
    }

    fn smallest(readers: &[u16]) -> Vec<u16> {
        smallest_by(Reading::Pooled, readers)
    }

    /// The definition: a group that reads while none of its proper subsets does.
    fn by_definition(reading: Reading, readers: &[u16]) -> Vec<u16> {
        let sheet = sheet(reading, readers);
        let reads = |bits: u16| sheet.reads(Principals::from_bits(bits), 0);
        let all = 0..1 << readers.len();
        all.filter(|&g| reads(g) && !(0..g).any(|h| h & g == h && reads(h))).collect()
    }

    #[test]
    fn known_labels_have_the_groups_of_the_definition() {
        let everyone = [0x000f; 4];
        assert_eq!(smallest(&everyone), [1, 2, 4, 8]);
        let alone = [1, 2, 4, 8];
        assert_eq!(smallest(&alone), [0x000f]);
        let pairs = [0b0011, 0b0011, 0b1100, 0b1100];
        assert_eq!(smallest(&pairs), [0b0101, 0b0110, 0b1001, 0b1010]);
        let ring = [0b0011, 0b0110, 0b1100, 0b1001];
        assert_eq!(smallest(&ring), [0b0101, 0b1010]);
        assert_eq!(smallest(&[1]), [1]);
        for readers in [everyone, alone, pairs, ring] {
            let defined = by_definition(Reading::Pooled, &readers);
            assert_eq!(smallest(&readers), defined, "{readers:?}");
        }
    }

    #[test]
    fn one_who_reads_alone_is_a_smallest_group() {
        let alone = |readers: &[u16]| smallest_by(Reading::Alone, readers);
        assert_eq!(alone(&[0x000f; 4]), [1, 2, 4, 8]);
        assert_eq!(alone(&[0b0111, 0b1110, 0b1111, 0b1111]), [0b0010, 0b0100]);
        assert_eq!(alone(&[0b1001, 0b1010, 0b1100, 0b1000]), [0b1000]);
        assert_eq!(alone(&[0b0101, 0b1010, 0b1111, 0b1111]), []);
        assert_eq!(alone(&[1]), [1]);
    }

    #[test]
    fn all_labels_of_three_have_the_groups_of_the_definition() {
        for choice in 0..1 << 9 {
            let readers = [0, 1, 2].map(|owner| (choice >> (3 * owner) & 7) | 1 << owner);
            for rule in [Reading::Pooled, Reading::Alone] {
                let defined = by_definition(rule, &readers);
                assert_eq!(smallest_by(rule, &readers), defined, "{rule:?} {readers:?}");
            }
        }
    }

    #[test]
    fn sixteen_owners_can_have_a_thousand_groups() {
        // in each four principals every owner lets all but the next one read: any two of them
        let fours = |owner: usize| 0xf << (owner & 12) & !(1 << (owner & 12 | (owner + 1) & 3));
        let smallest = smallest(&std::array::from_fn::<u16, 16, _>(fours));
        assert_eq!(smallest.len(), 6 * 6 * 6 * 6);
        assert!(smallest.windows(2).all(|pair| pair[0] < pair[1]));
        let two = |group: u16, four: u32| (group >> (4 * four) & 0xf).count_ones() == 2;
        assert!(smallest.iter().all(|&group| (0..4).all(|four| two(group, four))));
    }

    const SHEET: &[u8] = b"P\t3\nL\nL\nO\t0\t0002\t0000\n";

    #[test]
    fn groups_are_listed_in_the_first_places() {
        let mut places = [7; 5];
        assert_eq!(groups(SHEET, 0, &mut places), Groups::listed(3));
        assert_eq!(places, [1, 2, 4, 7, 7]);
        assert_eq!(try_groups(SHEET, 1, &mut places), Ok(2));
        assert_eq!(places, [1, 2, 4, 7, 7]);
        let mut exact = [7; 2];
        assert_eq!(try_groups(SHEET, 1, &mut exact), Ok(2));
        assert_eq!(exact, [1, 2]);
    }

    #[test]
    fn a_label_that_is_not_there_and_too_few_places_are_twelve() {
        let few = |found| Reason::Places { found, wanted: 3 };
        for found in 0..3 {
            let mut places = vec![7; found];
            assert_eq!(try_groups(SHEET, 0, &mut places), Err(few(found)));
            assert_eq!(groups(SHEET, 0, &mut places), Groups { answer: 12, count: 0 });
            assert_eq!(places, vec![7; found]);
        }
        for label in [2, 3, 256, 65_536, u32::MAX] {
            let unknown = Reason::UnknownLabel { label, count: 2 };
            assert_eq!(try_groups(SHEET, label, &mut [7; 9]), Err(unknown));
        }
        let unknown = Reason::UnknownLabel { label: 0, count: 0 };
        assert_eq!(try_groups(b"P\t3\n", 0, &mut []), Err(unknown));
    }

    #[test]
    fn a_label_that_nobody_reads_alone_has_no_group() {
        let sheet = b"P\t3\nR\t1\nL\nL\nO\t0\t0000\t0000\nO\t1\t0000\t0000\n";
        let mut places = [7; 2];
        assert_eq!(groups(sheet, 1, &mut places), Groups::listed(0));
        assert_eq!(places, [7; 2]);
        assert_eq!(try_groups(sheet, 1, &mut []), Ok(0));
        let few = Reason::Places { found: 2, wanted: 3 };
        assert_eq!(try_groups(sheet, 0, &mut places), Err(few));
        let unknown = Reason::UnknownLabel { label: 2, count: 2 };
        assert_eq!(try_groups(sheet, 2, &mut places), Err(unknown));
    }
}
