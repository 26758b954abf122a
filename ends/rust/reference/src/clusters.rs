//! Clusters: a list of shares and two bounds.

use crate::limits::PLACES;
use crate::refusals::{BOUNDS, MEMBERS, SHARE};

/// "A cluster is a lent list of 32-bit shares, member 0 first, and two 32-bit bounds: u (share failing in any way) and
/// r (share that may lie)."
#[derive(Clone, Copy)]
pub(crate) struct Cluster<'a> {
    pub shares: &'a [u32],
    pub u: u32,
    pub r: u32,
}

impl Cluster<'_> {
    /// The total share D.
    pub fn total(&self) -> u64 {
        self.share_of(|_| true)
    }

    /// The share of the members that are chosen: shares are added, never members counted.
    pub fn share_of(&self, chosen: impl Fn(usize) -> bool) -> u64 {
        let members = self.shares.iter().enumerate();
        members
            .filter(|&(member, _)| chosen(member))
            .map(|(_, &share)| u64::from(share))
            .sum()
    }

    /// "Accepted: 1 to 64 members, each share 1 to 1,000,000, r at most u, and total share D at least 2u + r + 1."
    /// Refusals in the order 1, 2, 3.
    pub fn judge(&self) -> Result<(), u32> {
        if self.shares.is_empty() || self.shares.len() > PLACES {
            return Err(MEMBERS);
        }
        if self.shares.iter().any(|&share| share == 0 || share > 1_000_000) {
            return Err(SHARE);
        }
        if self.r > self.u || self.total() < 2 * u64::from(self.u) + u64::from(self.r) + 1 {
            return Err(BOUNDS);
        }
        Ok(())
    }
}
