//! Authorities and groups whose members together do what none of them does alone.

use super::case::group;
use super::prng::Prng;
use reference::label::{Label, Reading};
use reference::principals::Principals;
use reference::sheet::{LabelId, Sheet};

/// An authority for scripts: at times one that together reads a label they unpack to, or writes one
/// they pack with.
pub fn authority(prng: &mut Prng, sheet: &Sheet, scripts: &[u8]) -> u16 {
    let [unpacked, packed] = [&b"u\t"[..], b"k\t"].map(|kind| named(scripts, kind));
    if packed.is_empty() || (!unpacked.is_empty() && prng.chance(65)) {
        pooling(prng, sheet, &unpacked, reads)
    } else {
        pooling(prng, sheet, &packed, writes)
    }
}

/// A group that looks on: at times one that together reads a label of the sheet.
pub fn onlookers(prng: &mut Prng, sheet: &Sheet) -> u16 {
    let labels: Vec<LabelId> = (0..sheet.labels.len()).collect();
    pooling(prng, sheet, &labels, reads)
}

/// Whether a group does something with a label, where its members pool.
pub type Does = fn(&Label, Principals) -> bool;

pub fn reads(label: &Label, group: Principals) -> bool {
    label.read_by(Reading::Pooled, group)
}

pub fn writes(label: &Label, group: Principals) -> bool {
    label.written_by(group)
}

/// Whether a group does it together, and none of its members alone.
pub fn pools(label: &Label, group: Principals, does: Does) -> bool {
    let alone = |member| does(label, Principals::only(member));
    does(label, group) && !group.members().any(alone)
}

/// The labels that end the lines of a kind.
fn named(scripts: &[u8], kind: &[u8]) -> Vec<LabelId> {
    let lines = scripts.split(|&byte| byte == b'\n').filter(|line| line.starts_with(kind));
    let label = |line: &[u8]| std::str::from_utf8(line).ok()?.rsplit('\t').next()?.parse().ok();
    lines.filter_map(label).collect()
}

/// A group: mostly one that pools for one of the labels, where one is found soon.
fn pooling(prng: &mut Prng, sheet: &Sheet, labels: &[LabelId], does: Does) -> u16 {
    if labels.is_empty() || prng.chance(40) {
        return group(prng, sheet.principals);
    }
    let mut any = 0;
    for _ in 0..12 {
        any = group(prng, sheet.principals);
        let label = &sheet.labels[prng.pick(labels)];
        if pools(label, Principals::from_bits(any), does) {
            break;
        }
    }
    any
}
