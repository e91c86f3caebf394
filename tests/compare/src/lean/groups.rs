//! The smallest groups of a label. They are gone through twice, to be counted and to be written, so
//! that none is kept.

use super::label::Label;
use super::sheet::Sheet;
use super::sheet_text;
use reference::answer::{Groups, Refusal};

/// Lists the smallest groups that read a label, rising as numbers, in the first places of a slice.
/// A refusal leaves every place as it was.
pub fn groups(sheet: &[u8], label: u32, groups: &mut [u16]) -> Groups {
    try_groups(sheet, label, groups).map_or_else(Groups::refused, Groups::listed)
}

fn try_groups(text: &[u8], label: u32, groups: &mut [u16]) -> Result<u32, Refusal> {
    let mut sheet = Sheet::empty();
    sheet_text::read(text, &mut sheet)?;
    let label = sheet.labels.get(label as usize).ok_or(Refusal::Unlisted)?;
    if sheet.alone {
        list(Singles(label.single_readers()), groups)
    } else {
        list(Smallest { label, everyone: sheet.everyone.into(), next: 1 }, groups)
    }
}

fn list(smallest: impl Iterator<Item = u16> + Clone, groups: &mut [u16]) -> Result<u32, Refusal> {
    let count = smallest.clone().count();
    let places = groups.get_mut(..count).ok_or(Refusal::Unlisted)?;
    for (place, group) in places.iter_mut().zip(smallest) {
        *place = group;
    }
    Ok(count as u32)
}

/// Each principal of a set by itself, rising.
#[derive(Clone)]
struct Singles(u16);

impl Iterator for Singles {
    type Item = u16;

    fn next(&mut self) -> Option<u16> {
        let others = self.0 & self.0.checked_sub(1)?;
        let single = self.0 ^ others;
        self.0 = others;
        Some(single)
    }
}

/// The smallest groups that read a label together, from the number `next` on, rising.
#[derive(Clone)]
struct Smallest<'a> {
    label: &'a Label,
    everyone: u32,
    next: u32,
}

impl Iterator for Smallest<'_> {
    type Item = u16;

    fn next(&mut self) -> Option<u16> {
        while self.next <= self.everyone {
            let group = self.next as u16;
            if !self.label.read_together_by(group) {
                self.next += 1;
                continue;
            }
            // up to where the lowest member carries, every number contains this group
            self.next += 1 << group.trailing_zeros();
            if is_smallest(self.label, group) {
                return Some(group);
            }
        }
        None
    }
}

/// Whether a group that reads a label together doesn't without any one of its members.
fn is_smallest(label: &Label, group: u16) -> bool {
    let mut left = group;
    while left != 0 {
        let others = left & (left - 1);
        if label.read_together_by(group & !(left ^ others)) {
            return false;
        }
        left = others;
    }
    true
}
