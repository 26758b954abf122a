//! First pairs and resend pairs.

use crate::circle::{divisor, Circle};
use crate::cluster::accepted_pair;
use crate::dealer::owner;
use crate::limits::{is_message, RESEND};

/// Who sends message k first, and to whom. Refusals: 1, 2, 3 of the sending cluster, then of the receiving, 4, 6.
#[allow(clippy::too_many_arguments)]
pub fn first_pair(
    ss: &[u32],
    su: u32,
    sr: u32,
    rs: &[u32],
    ru: u32,
    rr: u32,
    q: u32,
    k: u64,
    answer: &mut [u64; 2],
) -> u32 {
    *answer = [0; 2];
    let totals = match accepted_pair(ss, su, sr, rs, ru, rr, q) {
        Ok(totals) => totals,
        Err(refusal) => return refusal,
    };
    if !is_message(k) {
        return 6;
    }
    let width = u64::from(q);
    let (quantum, slot) = ((k - 1) / width, (k - 1) % width);
    let turned = (slot + quantum) % width;
    let sender = owner(ss, totals.sending, q, slot as u32);
    let receiver = owner(rs, totals.receiving, q, turned as u32);
    *answer = [sender as u64, receiver as u64];
    0
}

/// Who sends message k for the n-th time again, to whom, and the run. Refusals: as for the first pair, then 7.
#[allow(clippy::too_many_arguments)]
pub fn resend_pair(
    ss: &[u32],
    su: u32,
    sr: u32,
    rs: &[u32],
    ru: u32,
    rr: u32,
    q: u32,
    k: u64,
    n: u32,
    answer: &mut [u64; 3],
) -> u32 {
    *answer = [0; 3];
    let totals = match accepted_pair(ss, su, sr, rs, ru, rr, q) {
        Ok(totals) => totals,
        Err(refusal) => return refusal,
    };
    if !is_message(k) {
        return 6;
    }
    if n == 0 || n > RESEND {
        return 7;
    }
    let slot = (k - 1) % u64::from(q);
    let sender = owner(ss, totals.sending, q, slot as u32);
    let circle = Circle::of(ss, rs, &totals);
    let at = circle.resend(sender, n);
    *answer = [at.sender as u64, at.receiver as u64, circle.run(at) / divisor(&totals)];
    0
}
