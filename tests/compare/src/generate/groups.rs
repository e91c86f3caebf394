//! Calls for the smallest groups of a label.

use super::prng::Prng;
use super::sheet::{plan_of, Listed};
use super::{case, damage};
use reference::sheet::Sheet;
use reference::{sheet_text, smallest_groups, MOST_GROUPS};

/// The arguments of a call for groups. No place of the lent slice is 0.
#[derive(Clone, Debug)]
pub struct GroupsCase {
    pub sheet: Vec<u8>,
    pub label: u32,
    pub places: Vec<u16>,
}

/// The call of a seed: about three fifths of them are done.
pub fn groups_case(seed: u64) -> GroupsCase {
    let prng = &mut Prng::new(seed);
    let principals = principals(prng);
    let text = plan_of(prng, principals, policies).text().into_bytes();
    let sheet = sheet_text::parse(&text).expect("a sheet without damage is of the form");
    let label = label(prng, sheet.labels.len());
    let length = length(prng, needed(&sheet, label));
    let damaged = prng.chance(15);
    GroupsCase {
        sheet: if damaged { damage::sheet(prng, &text) } else { text },
        label,
        places: (0..length).map(|_| prng.draw() as u16 | 1 << prng.below(16)).collect(),
    }
}

/// Mostly few principals: the sets of many take time to go through.
fn principals(prng: &mut Prng) -> usize {
    match prng.below(25) {
        0 => 16,
        1 => prng.between(11, 15),
        2..=5 => prng.between(7, 10),
        _ => prng.between(1, 6),
    }
}

/// Policies of all owners or some, whose readers are of one shape; the writers are any.
fn policies(prng: &mut Prng, n: usize) -> Vec<Listed> {
    let everyone = u16::MAX >> (16 - n);
    let (shape, number) = (prng.below(11), prng.between(1, n));
    let all = prng.chance(60);
    let owners: Vec<usize> = (0..n).filter(|_| all || prng.chance(60)).collect();
    let policy = |owner| Listed {
        owner,
        readers: readers(prng, shape, number, owner, n) & everyone,
        writers: prng.draw() as u16 & everyone,
    };
    owners.into_iter().map(policy).collect()
}

/// The readers of an owner: everyone, nobody else, one of two, one of three, so many from the owner
/// on, all but so many after it, few, many, the same half or so with few others, or any.
fn readers(prng: &mut Prng, shape: usize, number: usize, owner: usize, n: usize) -> u16 {
    match shape {
        0 => u16::MAX,
        1 => 0,
        2 => 0b11 << (owner & !1),
        3 => 0b111 << (owner / 3 * 3),
        4 => from(owner, number, n),
        5 => !from(owner + 1, number, n),
        6 => prng.draw() as u16 & prng.draw() as u16,
        7 => prng.draw() as u16 | prng.draw() as u16,
        8 | 9 => from(number, n.div_ceil(2), n) | prng.draw() as u16 & prng.draw() as u16,
        _ => case::group(prng, n),
    }
}

/// So many of n principals from one on, the first after the last.
fn from(principal: usize, count: usize, n: usize) -> u16 {
    (0..count).fold(0, |set, i| set | 1 << ((principal + i) % n))
}

/// The readers of an owner where any two of each four principals read: its four but the next one.
pub fn two_of_four(owner: usize) -> u16 {
    let first = owner & 12;
    0xf << first & !(1 << (first | (owner + 1) & 3))
}

/// A label, mostly one of so many that are on the sheet; else often one that would be if a number
/// had fewer bits.
fn label(prng: &mut Prng, count: usize) -> u32 {
    let count = count as u32;
    let any = if count == 0 { 0 } else { prng.below(count as usize) as u32 };
    match prng.below(20) {
        0 => prng.pick(&[count, count, count + 1, 32, u32::MAX]),
        1 => any + prng.pick(&[32, 1 << 8, 1 << 16, 1 << 31]),
        _ => any,
    }
}

/// How many places the groups of a label need, where it is on the sheet.
fn needed(sheet: &Sheet, label: u32) -> usize {
    let label = label as usize;
    if label < sheet.labels.len() {
        smallest_groups(sheet, label).len()
    } else {
        1
    }
}

/// The length of a slice by the places needed.
fn length(prng: &mut Prng, needed: usize) -> usize {
    match prng.below(20) {
        0 => 0,
        1 | 2 => needed.saturating_sub(1),
        3 => prng.below(needed.max(1)),
        4..=7 => needed + prng.between(1, 20),
        8 => prng.pick(&[needed + (1 << 8), needed + MOST_GROUPS, 1 << 16]),
        _ => needed,
    }
}
