//! A cumulative number and a mask: what a report says, and what a receiving member holds.

use crate::limits::PLACES;

/// "Cumulative number c and a 64-bit mask. Bit b speaks of message c + 1 + b."
#[derive(Clone, Copy, PartialEq, Eq)]
pub(crate) struct Marks {
    pub number: u64,
    pub mask: u64,
}

impl Marks {
    /// "Held means at most c, or marked."
    pub fn holds(&self, k: u64) -> bool {
        if k <= self.number {
            return true;
        }
        let bit = k - self.number - 1;
        bit < PLACES as u64 && self.bit(bit)
    }

    /// Whether bit b is set.
    pub fn bit(&self, b: u64) -> bool {
        (self.mask >> b) & 1 == 1
    }

    /// The highest message held; c + 1 + b may be more than 64 bits hold.
    pub fn highest_held(&self) -> u128 {
        let number = u128::from(self.number);
        let highest_bit = (0..PLACES as u64).rev().find(|&b| self.bit(b));
        highest_bit.map_or(number, |b| number + 1 + u128::from(b))
    }
}
