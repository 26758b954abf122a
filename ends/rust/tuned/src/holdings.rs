//! The receiving member's holdings.

use crate::limits::{is_message, MESSAGE};
use crate::marks::{none_above, past};

/// The holdings of a member that has received nothing.
pub fn fresh(holdings: &mut [u64; 2]) {
    *holdings = [0; 2];
}

fn well_formed(&[c, mask]: &[u64; 2]) -> bool {
    mask & 1 == 0 && none_above(c, mask, MESSAGE)
}

/// Message k arrives. Refusals: 17, 6, 18.
pub fn arrive(holdings: &mut [u64; 2], k: u64) -> u32 {
    if !well_formed(holdings) {
        return 17;
    }
    if !is_message(k) {
        return 6;
    }
    let [c, mask] = holdings;
    if k > *c + 64 {
        return 18;
    }
    if k == *c + 1 {
        let rise = u64::from((*mask | 1).trailing_ones());
        *c += rise;
        *mask = past(*mask, rise);
    } else if k > *c {
        *mask |= 1 << (k - *c - 1);
    }
    0
}

/// The member's report. Refusal: 17.
pub fn receiver_report(holdings: &[u64; 2], answer: &mut [u64; 2]) -> u32 {
    *answer = [0; 2];
    if !well_formed(holdings) {
        return 17;
    }
    *answer = *holdings;
    0
}
