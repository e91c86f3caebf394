//! Labels in effective form, and joins of labels as masks over a sheet's labels.
//!
//! The tests of a label go through all 16 owners without an early end, several owners at a time.

pub const MOST_PRINCIPALS: usize = 16;

/// The readers and writers for each owner. Owners that aren't on the sheet let everyone do both.
#[derive(Clone, Copy, PartialEq, Eq)]
pub struct Label {
    readers: [u16; MOST_PRINCIPALS],
    writers: [u16; MOST_PRINCIPALS],
}

impl Label {
    /// The label without a policy.
    pub fn open(everyone: u16) -> Label {
        Label { readers: [everyone; MOST_PRINCIPALS], writers: [everyone; MOST_PRINCIPALS] }
    }

    pub fn set_policy(&mut self, owner: usize, readers: u16, writers: u16) {
        self.readers[owner] = readers | 1 << owner;
        self.writers[owner] = writers | 1 << owner;
    }

    /// Whether the group holds a reader for each owner.
    pub fn read_together_by(&self, group: u16) -> bool {
        meets_each(&self.readers, group)
    }

    /// Those who read for each owner.
    pub fn single_readers(&self) -> u16 {
        self.readers.iter().fold(u16::MAX, |all, set| all & set)
    }

    pub fn written_by(&self, group: u16) -> bool {
        meets_each(&self.writers, group)
    }

    /// C of this label is at or below C of the other.
    fn reads_flow(&self, other: &Label) -> bool {
        within_each(&other.readers, &self.readers)
    }

    /// I of this label is at or below the other.
    fn writes_flow(&self, other: &Label) -> bool {
        within_each(&self.writers, &other.writers)
    }

    pub fn at_or_below(&self, other: &Label) -> bool {
        self.reads_flow(other) && self.writes_flow(other)
    }
}

fn meets_each(sets: &[u16; MOST_PRINCIPALS], group: u16) -> bool {
    sets.iter().fold(true, |all, set| all & (set & group != 0))
}

fn within_each(inner: &[u16; MOST_PRINCIPALS], outer: &[u16; MOST_PRINCIPALS]) -> bool {
    inner.iter().zip(outer).fold(0, |outside, (inner, outer)| outside | (inner & !outer)) == 0
}

/// A join: bit a of `readers` stands for C of label a, bit a of `writers` for I of label a. Bottom
/// has no bit, and it is at or below every label.
#[derive(Clone, Copy, Default)]
pub struct Join {
    readers: u32,
    writers: u32,
}

impl Join {
    pub fn label(label: u8) -> Join {
        Join { readers: 1 << label, writers: 1 << label }
    }

    /// I of a label.
    pub fn integrity(label: u8) -> Join {
        Join { readers: 0, writers: 1 << label }
    }

    /// C of this join.
    pub fn confidentiality(self) -> Join {
        Join { readers: self.readers, writers: 0 }
    }

    pub fn join(self, other: Join) -> Join {
        Join { readers: self.readers | other.readers, writers: self.writers | other.writers }
    }

    pub fn at_or_below(self, labels: &[Label], label: u8) -> bool {
        let target = &labels[usize::from(label)];
        members(self.readers, label).all(|a| labels[a].reads_flow(target))
            && members(self.writers, label).all(|a| labels[a].writes_flow(target))
    }
}

/// The numbers of the bits, but for one.
fn members(bits: u32, but: u8) -> impl Iterator<Item = usize> {
    let mut left = bits & !(1 << but);
    std::iter::from_fn(move || {
        let next = left.trailing_zeros() as usize;
        let some = left != 0;
        left &= left.wrapping_sub(1);
        some.then_some(next)
    })
}
