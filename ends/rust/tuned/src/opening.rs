//! Opening a window, and sending.

use crate::cluster::accepted_pair;
use crate::formed::judge;
use crate::layout::{POINT, QUANTUM, R, RECEIVING, SENDING, SENT, SHARES, U, WORDS};
use crate::limits::is_message;

/// Opens a window; a refused opening hands back zeros. Refusals: 1, 2, 3 of the sending cluster, then of the receiving, 4.
#[allow(clippy::too_many_arguments)]
pub fn open(ss: &[u32], su: u32, sr: u32, rs: &[u32], ru: u32, rr: u32, q: u32, window: &mut [u64; WORDS]) -> u32 {
    *window = [0; WORDS];
    if let Err(refusal) = accepted_pair(ss, su, sr, rs, ru, rr, q) {
        return refusal;
    }
    keep(window, SENDING, ss, su, sr);
    keep(window, RECEIVING, rs, ru, rr);
    window[QUANTUM] = u64::from(q);
    0
}

/// Writes an accepted cluster into its words.
fn keep(window: &mut [u64; WORDS], at: usize, shares: &[u32], u: u32, r: u32) {
    window[at] = shares.len() as u64;
    window[at + U] = u64::from(u);
    window[at + R] = u64::from(r);
    for (word, &share) in window[at + SHARES..].iter_mut().zip(shares) {
        *word = u64::from(share);
    }
}

/// Sends message k. Refusals: 17, 6, 10, 9. The place of the new message is empty already in a well-formed state.
pub fn send(window: &mut [u64; WORDS], k: u64) -> u32 {
    if judge(window) != 0 {
        return 17;
    }
    if !is_message(k) {
        return 6;
    }
    if k != window[SENT] + 1 {
        return 10;
    }
    if k > window[POINT] + 64 {
        return 9;
    }
    window[SENT] = k;
    0
}
