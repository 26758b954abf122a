//! The archive's calls over lent slices: refusals are numbers, 0 for none, and the state is 457 words.
//!
//! A slice is never null, is aligned and is as long as it says, and what is lent to be written is lent to nobody else: all
//! that the archive's header asks of a caller. So these functions are safe for any values.

use crate::sys;

/// The words of a window's state.
pub const WINDOW_WORDS: usize = 457;

/// The words of a receiving member's holdings.
pub const HOLDINGS_WORDS: usize = 2;

/// The bytes that a report's output needs.
pub const REPORT_BYTES: usize = 1024;

/// The bytes of a verdict.
pub const VERDICT_BYTES: usize = 16;

/// The bytes of a link record.
pub const RECORD_BYTES: usize = 24;

/// The longest plan text.
pub const PLAN_BYTES: usize = 3458;

/// How many of q messages each member gets, in the first places of `out`. Refusals, in this order: 1, 2, 3, 4, 5.
pub fn counts(shares: &[u32], u: u32, r: u32, q: u32, out: &mut [u32]) -> u32 {
    // SAFETY: both slices are lent for the call with their own lengths, and only `out` is written.
    unsafe { sys::havdorlek_counts(shares.as_ptr(), shares.len(), u, r, q, out.as_mut_ptr(), out.len()) }
}

/// Sender and receiver of message k's first copy. Refusals, in this order: 1, 2, 3 of the sending cluster, then of the
/// receiving, 4, 6.
#[allow(clippy::too_many_arguments)]
pub fn first_pair(
    ss: &[u32],
    su: u32,
    sr: u32,
    rs: &[u32],
    ru: u32,
    rr: u32,
    q: u32,
    k: u64,
    answer: &mut [u64; 2],
) -> u32 {
    let (s, sn, r, rn) = (ss.as_ptr(), ss.len(), rs.as_ptr(), rs.len());
    // SAFETY: the shares are lent for the call with their own lengths and are not written; `answer` has two places.
    unsafe { sys::havdorlek_first_pair(s, sn, su, sr, r, rn, ru, rr, q, k, answer.as_mut_ptr()) }
}

/// Sender, receiver and run of resend n of message k. Refusals, in this order: as for the first pair, then 7.
#[allow(clippy::too_many_arguments)]
pub fn resend_pair(
    ss: &[u32],
    su: u32,
    sr: u32,
    rs: &[u32],
    ru: u32,
    rr: u32,
    q: u32,
    k: u64,
    n: u32,
    answer: &mut [u64; 3],
) -> u32 {
    let (s, sn, r, rn) = (ss.as_ptr(), ss.len(), rs.as_ptr(), rs.len());
    // SAFETY: the shares are lent for the call with their own lengths and are not written; `answer` has three places.
    unsafe { sys::havdorlek_resend_pair(s, sn, su, sr, r, rn, ru, rr, q, k, n, answer.as_mut_ptr()) }
}

/// Opens a window; a refused opening hands back zeros. Refusals, in this order: 1, 2, 3 of the sending cluster, then of the
/// receiving, 4.
#[allow(clippy::too_many_arguments)]
pub fn open(
    ss: &[u32],
    su: u32,
    sr: u32,
    rs: &[u32],
    ru: u32,
    rr: u32,
    q: u32,
    window: &mut [u64; WINDOW_WORDS],
) -> u32 {
    let (s, sn, r, rn) = (ss.as_ptr(), ss.len(), rs.as_ptr(), rs.len());
    // SAFETY: the shares are lent for the call with their own lengths and are not written; `window` has its 457 words.
    unsafe { sys::havdorlek_open(s, sn, su, sr, r, rn, ru, rr, q, window.as_mut_ptr()) }
}

/// Judges a state: 17 where it is not well formed.
pub fn judge(window: &[u64; WINDOW_WORDS]) -> u32 {
    // SAFETY: `window` has its 457 words and is not written.
    unsafe { sys::havdorlek_judge(window.as_ptr()) }
}

/// Sends message k. Refusals, in this order: 17, 6, 10, 9.
pub fn send(window: &mut [u64; WINDOW_WORDS], k: u64) -> u32 {
    // SAFETY: `window` has its 457 words.
    unsafe { sys::havdorlek_send(window.as_mut_ptr(), k) }
}

/// Takes a report: verdicts go into `out`, their count into `answer`. Refusals, in this order: 17, 5, 8, 12, 11, 13.
pub fn report(
    window: &mut [u64; WINDOW_WORDS],
    member: u32,
    number: u64,
    mask: u64,
    out: &mut [u8],
    answer: &mut [u64; 1],
) -> u32 {
    let (out, room, answer) = (out.as_mut_ptr(), out.len(), answer.as_mut_ptr());
    // SAFETY: `window` has its 457 words, `out` as many bytes as it says, `answer` one place, and the three lie apart.
    unsafe { sys::havdorlek_report(window.as_mut_ptr(), member, number, mask, out, room, answer) }
}

/// The holdings of a member that has received nothing.
pub fn fresh(holdings: &mut [u64; HOLDINGS_WORDS]) {
    // SAFETY: `holdings` has its two words.
    unsafe { sys::havdorlek_fresh(holdings.as_mut_ptr()) }
}

/// Message k arrives at a receiving member. Refusals, in this order: 17, 6, 18.
pub fn arrive(holdings: &mut [u64; HOLDINGS_WORDS], k: u64) -> u32 {
    // SAFETY: `holdings` has its two words.
    unsafe { sys::havdorlek_arrive(holdings.as_mut_ptr(), k) }
}

/// The receiving member's report: c and the mask. Refusal: 17.
pub fn receiver_report(holdings: &[u64; HOLDINGS_WORDS], answer: &mut [u64; 2]) -> u32 {
    // SAFETY: `holdings` has its two words and is not written; `answer` has two places.
    unsafe { sys::havdorlek_receiver_report(holdings.as_ptr(), answer.as_mut_ptr()) }
}

/// Reads a link record: kind, member, number and mask. Refusals, in this order: 16, 14, 15.
pub fn read(bytes: &[u8], answer: &mut [u64; 4]) -> u32 {
    // SAFETY: `bytes` are lent for the call with their own length and are not written; `answer` has four places.
    unsafe { sys::havdorlek_read(bytes.as_ptr(), bytes.len(), answer.as_mut_ptr()) }
}

/// Writes a link record into the first 24 bytes of `out`. Refusals, in this order: 14, 15, 5.
pub fn write(kind: u8, member: u8, number: u64, mask: u64, out: &mut [u8]) -> u32 {
    // SAFETY: `out` is lent for the call with its own length.
    unsafe { sys::havdorlek_write(kind, member, number, mask, out.as_mut_ptr(), out.len()) }
}

/// The plan program's text, in the first bytes of `out`; how many bytes it has.
pub fn plan(input: &[u8], out: &mut [u8; PLAN_BYTES]) -> usize {
    // SAFETY: `input` is lent for the call with its own length and is not written; `out` has room for the longest text.
    unsafe { sys::havdorlek_plan(input.as_ptr(), input.len(), out.as_mut_ptr()) }
}
