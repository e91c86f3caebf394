//! The workloads of a label, each of 16 principals: with few groups and with many, with the last
//! group early and late among the sets, and with none.

use super::{read_sheet, text};
use crate::implementation::Implementation;
use reference::answer::Groups;

const OWNERS: usize = 16;

/// Eight owners whose label has 42 groups, the most that a search found.
pub const EIGHT: [u16; 8] = [0x53, 0xc6, 0x2f, 0x9d, 0xb5, 0x7c, 0xe9, 0xba];

/// A sheet of one label, and the number of its smallest groups.
pub struct LabelWorkload {
    pub name: &'static str,
    sheet: String,
    count: u32,
}

pub fn all() -> Vec<LabelWorkload> {
    vec![top(), pairs(), kept(), late(), most(), worst(), alone()]
}

impl LabelWorkload {
    /// The number of places that the groups take.
    pub fn places(&self) -> usize {
        self.count as usize
    }

    pub fn sheet(&self, implementation: &Implementation) {
        read_sheet(implementation, self.name, &self.sheet);
    }

    /// Leaves the groups in `places`.
    pub fn groups(&self, implementation: &Implementation, places: &mut [u16]) {
        let listed = (implementation.groups)(self.sheet.as_bytes(), 0, places);
        assert_eq!(listed, Groups::listed(self.count), "the groups of {}", self.name);
    }
}

/// The workload of a label that lets these principals read, a set for each owner.
fn of_readers(name: &'static str, readers: [u16; OWNERS], count: u32) -> LabelWorkload {
    LabelWorkload { name, sheet: sheet(&["P 16", "L"], readers), count }
}

/// These lines, and the policies of the last label.
fn sheet(first: &[&str], readers: [u16; OWNERS]) -> String {
    let policies = readers.iter().enumerate();
    let policies = policies.map(|(owner, readers)| format!("O {owner} {readers:04x} ffff"));
    let lines: Vec<String> = first.iter().map(|line| line.to_string()).chain(policies).collect();
    text(&lines)
}

/// Each owner lets itself alone read: the group of all.
fn top() -> LabelWorkload {
    of_readers("groups-top", std::array::from_fn(|owner| 1 << owner), 1)
}

/// Each owner lets itself and its neighbour read: one of each pair.
fn pairs() -> LabelWorkload {
    of_readers("groups-pairs", std::array::from_fn(|owner| 0b11 << (owner & !1)), 256)
}

/// The first owner keeps it to itself, and the others let everyone read: the first set that is tried
/// is the one group.
fn kept() -> LabelWorkload {
    let readers = |owner: usize| if owner == 0 { 1 } else { 0xffff };
    of_readers("groups-kept", std::array::from_fn(readers), 1)
}

/// All but the last five owners let everyone read, and those let themselves and principal 0: the
/// group of these five comes behind nearly every set.
fn late() -> LabelWorkload {
    let readers = |owner: usize| if owner < 11 { 0xffff } else { 1 | 1 << owner };
    of_readers("groups-late", std::array::from_fn(readers), 2)
}

/// In each half of the owners a label of 42 groups, in all the most that a search found.
fn most() -> LabelWorkload {
    of_readers("groups-most", most_readers(), 1764)
}

fn most_readers() -> [u16; OWNERS] {
    std::array::from_fn(|owner| EIGHT[owner & 7] << (owner & 8))
}

/// The label that takes the library the most instructions, as far as a search found one: of many
/// groups that read, most members are tried before one is found that they can do without.
fn worst() -> LabelWorkload {
    const READERS: [u16; OWNERS] = [
        0x0005, 0x0003, 0x801e, 0x0019, 0x401e, 0x6ae6, 0x10fa, 0x11ae, 0x1176, 0xcf87, 0x24b6,
        0x0fe8, 0x106e, 0xa3a1, 0xcc6f, 0x90fc,
    ];
    of_readers("groups-worst", READERS, 89)
}

/// The label of `most` where one reader reads by himself: nobody, so that every set is tried.
fn alone() -> LabelWorkload {
    let sheet = sheet(&["P 16", "R 1", "L"], most_readers());
    LabelWorkload { name: "groups-alone", sheet, count: 0 }
}
