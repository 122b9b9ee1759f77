// SPDX-License-Identifier: MIT
//! Sets of numbers below 64: of segments, or of how many keys were taken out.
use std::ops::{BitAnd, BitOr, BitOrAssign};

#[derive(Clone, Copy, Debug, Default, PartialEq, Eq)]
pub struct Set(u64);

impl Set {
    /// The set of one number. From 64 on it is empty.
    pub fn of(number: u32) -> Set {
        Set(1u64.checked_shl(number).unwrap_or(0))
    }

    pub fn has(self, number: u32) -> bool {
        !(self & Set::of(number)).is_empty()
    }

    pub fn is_empty(self) -> bool {
        self.0 == 0
    }

    #[must_use]
    pub fn without(self, number: u32) -> Set {
        Set(self.0 & !Set::of(number).0)
    }

    /// The sums of two numbers, one of each set.
    pub fn sums(self, others: Set) -> Set {
        (0..64).filter(|number| others.has(*number)).map(|number| Set(self.0 << number)).collect()
    }

    /// The numbers that, added to one of the set, make this sum.
    pub fn rests(self, sum: u32) -> Set {
        (0..=sum).filter(|rest| self.has(sum - rest)).map(Set::of).collect()
    }
}

impl BitOr for Set {
    type Output = Set;

    fn bitor(self, other: Set) -> Set {
        Set(self.0 | other.0)
    }
}

impl BitOrAssign for Set {
    fn bitor_assign(&mut self, other: Set) {
        self.0 |= other.0;
    }
}

impl BitAnd for Set {
    type Output = Set;

    fn bitand(self, other: Set) -> Set {
        Set(self.0 & other.0)
    }
}

impl FromIterator<Set> for Set {
    fn from_iter<I: IntoIterator<Item = Set>>(sets: I) -> Set {
        sets.into_iter().fold(Set::default(), BitOr::bitor)
    }
}

#[cfg(test)]
mod tests {
    use super::*;

    fn set(numbers: &[u32]) -> Set {
        numbers.iter().copied().map(Set::of).collect()
    }

    #[test]
    fn sums_and_rests() {
        assert_eq!(set(&[1, 3]).sums(set(&[0, 2])), set(&[1, 3, 5]));
        assert_eq!(set(&[1, 3]).rests(4), set(&[1, 3]));
        assert_eq!(set(&[1, 3]).rests(2), set(&[1]));
        assert!(set(&[64]).is_empty() && set(&[5]).rests(4).is_empty());
    }
}
