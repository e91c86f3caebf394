//! Labels in effective form, after "Principals and labels".

use crate::principals::Principals;

/// A policy as a label lists it.
#[derive(Clone, Copy, Debug, PartialEq, Eq)]
pub struct Policy {
    pub owner: usize,
    pub readers: Principals,
    pub writers: Principals,
}

/// How a group reads a label.
#[derive(Clone, Copy, Debug, PartialEq, Eq)]
pub enum Reading {
    /// It holds at least one effective reader for every owner.
    Pooled,
    /// One of its members is an effective reader for every owner: on a sheet with `R 1`.
    Alone,
}

/// What one owner lets principals do.
#[derive(Clone, Copy, Debug, PartialEq, Eq)]
struct Effective {
    readers: Principals,
    writers: Principals,
}

/// A label: the effective sets of each owner 0 to n-1.
#[derive(Clone, Debug, PartialEq, Eq)]
pub struct Label {
    owners: Vec<Effective>,
}

impl Label {
    /// The label of listed policies: an owner joins its own sets, and one without a policy lets
    /// every principal read and write.
    pub fn of_policies(n: usize, policies: &[Policy]) -> Label {
        let everyone = Principals::first(n);
        let effective = |owner: usize| match policies.iter().find(|p| p.owner == owner) {
            None => Effective { readers: everyone, writers: everyone },
            Some(policy) => Effective {
                readers: policy.readers.union(Principals::only(owner)),
                writers: policy.writers.union(Principals::only(owner)),
            },
        };
        Label { owners: (0..n).map(effective).collect() }
    }

    /// All readers, and for each owner the writers {o}.
    pub fn bottom(n: usize) -> Label {
        let effective = |owner: usize| Effective {
            readers: Principals::first(n),
            writers: Principals::only(owner),
        };
        Label { owners: (0..n).map(effective).collect() }
    }

    /// The number n of principals, each an owner.
    pub fn principals(&self) -> usize {
        self.owners.len()
    }

    /// The effective readers for an owner.
    pub fn readers(&self, owner: usize) -> Principals {
        self.owners[owner].readers
    }

    /// The effective writers for an owner.
    pub fn writers(&self, owner: usize) -> Principals {
        self.owners[owner].writers
    }

    /// For every owner, this label's readers contain the other's and its writers lie within them.
    pub fn at_or_below(&self, other: &Label) -> bool {
        self.owners.iter().zip(&other.owners).all(|(mine, theirs)| {
            mine.readers.contains(theirs.readers) && theirs.writers.contains(mine.writers)
        })
    }

    /// Intersects readers and unites writers.
    pub fn join(&self, other: &Label) -> Label {
        let pairs = self.owners.iter().zip(&other.owners);
        let joined = pairs.map(|(mine, theirs)| Effective {
            readers: mine.readers.intersection(theirs.readers),
            writers: mine.writers.union(theirs.writers),
        });
        Label { owners: joined.collect() }
    }

    /// C: this label's readers, and for each owner o the writers {o}.
    pub fn confidentiality(&self) -> Label {
        let owners = self.owners.iter().enumerate().map(|(owner, effective)| Effective {
            readers: effective.readers,
            writers: Principals::only(owner),
        });
        Label { owners: owners.collect() }
    }

    /// I: this label's writers and all principals as readers.
    pub fn integrity(&self) -> Label {
        let everyone = Principals::first(self.principals());
        let owners = self
            .owners
            .iter()
            .map(|effective| Effective { readers: everyone, writers: effective.writers });
        Label { owners: owners.collect() }
    }

    /// Whether the group reads this label.
    pub fn read_by(&self, reading: Reading, group: Principals) -> bool {
        match reading {
            Reading::Pooled => self.owners.iter().all(|effective| effective.readers.meets(group)),
            Reading::Alone => group.members().any(|member| self.has_reader(member)),
        }
    }

    /// Whether the principal is an effective reader for every owner.
    pub fn has_reader(&self, principal: usize) -> bool {
        let one = Principals::only(principal);
        self.owners.iter().all(|effective| effective.readers.contains(one))
    }

    /// Whether the group holds at least one effective writer for every owner.
    pub fn written_by(&self, group: Principals) -> bool {
        self.owners.iter().all(|effective| effective.writers.meets(group))
    }
}

#[cfg(test)]
mod tests {
    use super::{Label, Policy, Reading};
    use crate::principals::Principals;

    fn policy(owner: usize, readers: u16, writers: u16) -> Policy {
        Policy {
            owner,
            readers: Principals::from_bits(readers),
            writers: Principals::from_bits(writers),
        }
    }

    /// Every label of two principals: each owner's sets may or may not hold the other one.
    fn labels_of_two() -> Vec<Label> {
        let choices = [0u16, 3];
        let mut labels = Vec::new();
        for r0 in choices {
            for w0 in choices {
                for r1 in choices {
                    for w1 in choices {
                        labels.push(Label::of_policies(2, &[policy(0, r0, w0), policy(1, r1, w1)]));
                    }
                }
            }
        }
        labels
    }

    const RULES: [Reading; 2] = [Reading::Pooled, Reading::Alone];

    #[test]
    fn an_owner_without_a_policy_lets_everyone_read_and_write() {
        let open = Label::of_policies(3, &[]);
        assert_eq!(open, Label::of_policies(3, &[policy(1, 0x0005, 0x0005)]));
        assert!(Label::bottom(3).at_or_below(&open) && !open.at_or_below(&Label::bottom(3)));
    }

    #[test]
    fn the_empty_group_neither_reads_nor_writes() {
        let nobody = Principals::from_bits(0);
        for n in 1..=16 {
            let open = Label::of_policies(n, &[]);
            assert!(RULES.iter().all(|&rule| !open.read_by(rule, nobody)));
            assert!(!open.written_by(nobody));
        }
    }

    #[test]
    fn the_order_is_a_lattice_with_the_paper_s_parts() {
        let labels = labels_of_two();
        let bottom = Label::bottom(2);
        for a in &labels {
            let (c, i) = (a.confidentiality(), a.integrity());
            assert!(bottom.at_or_below(a));
            assert_eq!(c.join(&i), *a);
            assert_eq!((c.integrity(), i.confidentiality()), (bottom.clone(), bottom.clone()));
            assert_eq!((c.confidentiality(), i.integrity()), (c, i));
            for b in &labels {
                let join = a.join(b);
                assert!(a.at_or_below(&join) && b.at_or_below(&join));
                assert_eq!(a.at_or_below(b), join == *b);
                assert_eq!(a.at_or_below(b) && b.at_or_below(a), a == b);
            }
        }
    }

    #[test]
    fn who_reads_a_label_reads_every_label_below_it() {
        let labels = labels_of_two();
        for a in &labels {
            for b in labels.iter().filter(|b| a.at_or_below(b)) {
                for bits in 0..4 {
                    let group = Principals::from_bits(bits);
                    for rule in RULES {
                        assert!(a.read_by(rule, group) || !b.read_by(rule, group));
                    }
                    assert!(b.written_by(group) || !a.written_by(group));
                }
            }
        }
    }

    #[test]
    fn readers_pool_or_one_of_them_reads_alone() {
        let readers_apart = Label::of_policies(4, &[policy(0, 0b0100, 0), policy(1, 0b1000, 0)]);
        let reading = |rule| {
            let reads = |&bits: &u16| readers_apart.read_by(rule, Principals::from_bits(bits));
            (0..16).filter(reads).collect::<Vec<u16>>()
        };
        let meets_both = |&bits: &u16| bits & 0b0101 != 0 && bits & 0b1010 != 0;
        assert_eq!(reading(Reading::Pooled), (0..16).filter(meets_both).collect::<Vec<u16>>());
        assert_eq!(reading(Reading::Alone), []);

        // 2 reads for both owners, 0 and 1 for one
        let one_in_both = Label::of_policies(3, &[policy(0, 0b100, 0), policy(1, 0b100, 0)]);
        for bits in 0..8 {
            let group = Principals::from_bits(bits);
            assert_eq!(one_in_both.read_by(Reading::Alone, group), bits & 0b100 != 0);
            let pooled = bits & 0b100 != 0 || bits == 0b011;
            assert_eq!(one_in_both.read_by(Reading::Pooled, group), pooled);
        }
    }
}
