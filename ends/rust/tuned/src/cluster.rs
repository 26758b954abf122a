//! Which clusters are accepted.

use crate::limits::{MEMBERS, QUANTUM, SHARE};

/// Two accepted clusters' total shares.
pub struct Totals {
    /// The sending cluster's.
    pub sending: u32,
    /// The receiving cluster's.
    pub receiving: u32,
}

/// The total share of an accepted cluster, or the refusal: 1, 2, 3 in this order.
pub fn accepted(shares: &[u32], u: u32, r: u32) -> Result<u32, u32> {
    if shares.is_empty() || shares.len() > MEMBERS {
        return Err(1);
    }
    // Below 1 or above the limit, one of the two differences has its top bit set: one test for all members.
    let (total, off) = shares.iter().fold((0u32, 0), |(total, off), &share| {
        (
            total.wrapping_add(share),
            off | share.wrapping_sub(1) | SHARE.wrapping_sub(share),
        )
    });
    if off >> 31 != 0 {
        return Err(2);
    }
    if r > u || 2 * u64::from(u) + u64::from(r) + 1 > u64::from(total) {
        return Err(3);
    }
    Ok(total)
}

/// Whether a quantum is allowed.
pub fn is_quantum(q: u32) -> bool {
    (1..=QUANTUM).contains(&q)
}

/// The totals of two accepted clusters, or the refusal: 1, 2, 3 of the sending cluster, then of the receiving, 4.
pub fn accepted_pair(ss: &[u32], su: u32, sr: u32, rs: &[u32], ru: u32, rr: u32, q: u32) -> Result<Totals, u32> {
    let sending = accepted(ss, su, sr)?;
    let receiving = accepted(rs, ru, rr)?;
    if !is_quantum(q) {
        return Err(4);
    }
    Ok(Totals { sending, receiving })
}
