//! The receiving member: what it holds, arrivals, and its report.

use crate::limits::{judge_message, LAST_MESSAGE, PLACES};
use crate::marks::Marks;
use crate::refusals::{number, NOT_FORMED, TOO_FAR};

/// The holdings of a member that has received nothing.
pub fn fresh(holdings: &mut [u64; 2]) {
    *holdings = [0; 2];
}

/// Message k arrives. Refusals in the order 17, 6, 18.
pub fn arrive(holdings: &mut [u64; 2], k: u64) -> u32 {
    number(accepted_arrival(holdings, k))
}

/// "Its report is c and the mask." Refusal: 17.
pub fn receiver_report(holdings: &[u64; 2], answer: &mut [u64; 2]) -> u32 {
    *answer = [0; 2];
    let judged = accepted_holdings(holdings);
    if let Ok(held) = judged {
        *answer = [held.number, held.mask];
    }
    number(judged.map(|_| ()))
}

/// "Well formed: bit 0 clear, nothing held above 1,000,000,000,000."
fn accepted_holdings(holdings: &[u64; 2]) -> Result<Marks, u32> {
    let [number, mask] = *holdings;
    let held = Marks { number, mask };
    if held.bit(0) || held.highest_held() > u128::from(LAST_MESSAGE) {
        return Err(NOT_FORMED);
    }
    Ok(held)
}

/// "Message k at most c: already held, nothing changes. Up to c + 64: marked. If k = c + 1, c rises by the run of
/// marked bits from bit 0 and the mask moves down by as much (all 64 marked: c rises by 64, mask zero)."
fn accepted_arrival(holdings: &mut [u64; 2], k: u64) -> Result<(), u32> {
    let mut held = accepted_holdings(holdings)?;
    judge_message(k)?;
    if k > held.number + PLACES as u64 {
        return Err(TOO_FAR);
    }
    if k > held.number {
        held.mask |= 1 << (k - held.number - 1);
        // Bit 0 was clear, so a run from it begins just when k = c + 1. One step at a time, no shift is ever by 64.
        while held.bit(0) {
            held.number += 1;
            held.mask >>= 1;
        }
    }
    *holdings = [held.number, held.mask];
    Ok(())
}
