//! Sets of principals.

/// The most principals a sheet may have.
pub const MOST: usize = 16;

/// A set of principals: place p says whether principal p is in it.
#[derive(Clone, Copy, Debug, PartialEq, Eq)]
pub struct Principals([bool; MOST]);

impl Principals {
    /// The principals 0 to n-1.
    pub fn first(n: usize) -> Principals {
        Principals(std::array::from_fn(|p| p < n))
    }

    pub fn only(principal: usize) -> Principals {
        Principals(std::array::from_fn(|p| p == principal))
    }

    /// Bit p of a set is principal p, the lowest bit being p = 0.
    pub fn from_bits(bits: u16) -> Principals {
        Principals(std::array::from_fn(|p| (bits >> p) & 1 == 1))
    }

    /// The set as a number: bit p is principal p.
    pub fn bits(self) -> u16 {
        self.members().fold(0, |bits, p| bits | 1 << p)
    }

    /// The principals in this set, rising.
    pub fn members(self) -> impl Iterator<Item = usize> {
        (0..MOST).filter(move |&p| self.0[p])
    }

    pub fn union(self, other: Principals) -> Principals {
        Principals(std::array::from_fn(|p| self.0[p] || other.0[p]))
    }

    pub fn intersection(self, other: Principals) -> Principals {
        Principals(std::array::from_fn(|p| self.0[p] && other.0[p]))
    }

    /// Whether every principal of `other` is in this set.
    pub fn contains(self, other: Principals) -> bool {
        (0..MOST).all(|p| self.0[p] || !other.0[p])
    }

    /// Whether some principal is in both sets.
    pub fn meets(self, other: Principals) -> bool {
        (0..MOST).any(|p| self.0[p] && other.0[p])
    }
}

#[cfg(test)]
mod tests {
    use super::Principals;

    #[test]
    fn bit_p_is_principal_p() {
        assert_eq!(Principals::from_bits(0x8001), Principals::only(0).union(Principals::only(15)));
        assert_eq!(Principals::from_bits(0x0007), Principals::first(3));
        assert_eq!(Principals::from_bits(0xffff), Principals::first(16));
        assert_eq!(Principals::from_bits(0x8005).members().collect::<Vec<_>>(), [0, 2, 15]);
        assert!((0..=u16::MAX).all(|bits| Principals::from_bits(bits).bits() == bits));
    }

    #[test]
    fn containment_and_meeting() {
        let (low, high) = (Principals::from_bits(0x0003), Principals::from_bits(0x0006));
        assert!(Principals::first(3).contains(low) && !low.contains(high));
        assert!(low.meets(high) && !low.meets(Principals::only(2)));
        assert_eq!(low.intersection(high), Principals::only(1));
        assert!(low.contains(Principals::from_bits(0)) && !low.meets(Principals::from_bits(0)));
    }
}
