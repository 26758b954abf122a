//! Whether a state is well formed, and what is found out on the way.

use crate::columns::turn;
use crate::layout::{column, COMPLAINTS, COUNTS, HEARD, MASKS, NUMBERS, POINT, QUANTUM, R, SENT, SHARES, U, WORDS};
use crate::layout::{place, RECEIVING, SENDING};
use crate::limits::{self, MEMBERS};
use crate::marks::{first, held_after};

/// What a report can use of the judging of a well-formed state.
pub struct Formed {
    /// How many receiving members there are.
    pub members: usize,
    /// How many messages are open.
    pub open: u64,
    /// The share of the members whose number is above p.
    pub above: u64,
    /// Whether anybody complains of anything. If so, `held` has been filled.
    pub complaints: bool,
}

/// Judges a state: 17 where it is not well formed.
pub fn judge(window: &[u64; WORDS]) -> u32 {
    if formed(window, &mut [0; MEMBERS]).is_some() {
        0
    } else {
        17
    }
}

/// What is found out about a well-formed state. Where there are complaints, who holds what goes into `held`.
pub fn formed(window: &[u64; WORDS], held: &mut [u64; MEMBERS]) -> Option<Formed> {
    let (p, s) = (window[POINT], window[SENT]);
    if s > limits::MESSAGE || p > s || s - p > 64 {
        return None;
    }
    if window[QUANTUM].wrapping_sub(1) >= u64::from(limits::QUANTUM) {
        return None;
    }
    accepted_members(window, SENDING)?;
    let members = accepted_members(window, RECEIVING)?;
    let above = reports_kept(window, members)?;
    let named = entries_kept(window, s - p)?;
    if named & !first(members as u64) != 0 || named != 0 && !complaints_kept(window, members, held) {
        return None;
    }
    Some(Formed {
        members,
        open: s - p,
        above,
        complaints: named != 0,
    })
}

/// How many members an accepted cluster has.
fn accepted_members(window: &[u64; WORDS], at: usize) -> Option<usize> {
    let (members, u, r) = (window[at], window[at + U], window[at + R]);
    if members.wrapping_sub(1) >= MEMBERS as u64 {
        return None;
    }
    let (own, past) = column(window, at + SHARES).split_at(members as usize);
    // Below 1 or above the limit, one of the two differences has its top bit set: one test for all members.
    let (total, off) = own.iter().fold((0u64, 0), |(total, off), &share| {
        let low = share.wrapping_sub(1);
        let high = u64::from(limits::SHARE).wrapping_sub(share);
        (total.wrapping_add(share), off | low | high)
    });
    if off >> 63 != 0 || any(past) != 0 {
        return None;
    }
    // With u at most the total no sum can wrap.
    (r <= u && u <= total && 2 * u + r < total).then_some(members as usize)
}

/// All bits that are set in any of the words.
fn any(words: &[u64]) -> u64 {
    words.iter().fold(0, |all, word| all | word)
}

/// The share of the members above p, where the reports are kept and give the point p.
fn reports_kept(window: &[u64; WORDS], members: usize) -> Option<u64> {
    let (p, s, u) = (window[POINT], window[SENT], window[RECEIVING + U]);
    let shares = column(window, RECEIVING + SHARES);
    let (numbers, past_numbers) = column(window, NUMBERS).split_at(members);
    let (masks, past_masks) = column(window, MASKS).split_at(members);
    let (heard, past_heard) = column(window, HEARD).split_at(members);
    let reports = numbers.iter().zip(masks).zip(heard);
    let off = reports.fold(0, |off, ((&c, &mask), &heard)| off | report_off(c, mask, heard, s));
    let past = any(past_numbers) | any(past_masks) | any(past_heard);
    let share_from = |g: u64| -> u64 {
        let reports = numbers.iter().zip(shares);
        reports.map(|(&c, &share)| if c >= g { share } else { 0 }).sum()
    };
    let above = share_from(p + 1);
    // p is the largest number reached by share u + 1: it is reached itself, and the next one is not.
    (off | past == 0 && above <= u && share_from(p) > u).then_some(above)
}

/// Not 0 where a member's report is not kept: one that was not heard is all zero, bit 0 is clear, nothing is held above s.
fn report_off(c: u64, mask: u64, heard: u64, s: u64) -> u64 {
    let unheard = (c | mask) & heard.wrapping_sub(1);
    let above = u64::from(c > s);
    // Bit b may be marked below s - c alone; with bit 0 clear a shift by one and then by at most 63 says so.
    let far = mask >> 1 >> s.wrapping_sub(c).saturating_sub(1).min(63);
    heard >> 1 | unheard | above | mask & 1 | far
}

/// All members that complaint sets name, where counts are at most 255 and entries that are not open are empty.
fn entries_kept(window: &[u64; WORDS], open: u64) -> Option<u64> {
    let from = place(window[POINT], 0);
    let (open_counts, other_counts) = around(column(window, COUNTS), from, open as usize);
    let (open_sets, other_sets) = around(column(window, COMPLAINTS), from, open as usize);
    (open_counts <= 255 && other_counts | other_sets == 0).then_some(open_sets)
}

/// All bits in the `open` words from a place on, going round, and all bits in the others.
fn around(words: &[u64; MEMBERS], from: usize, open: usize) -> (u64, u64) {
    let end = from + open;
    if end <= MEMBERS {
        (any(&words[from..end]), any(&words[..from]) | any(&words[end..]))
    } else {
        (
            any(&words[from..]) | any(&words[..end - MEMBERS]),
            any(&words[end - MEMBERS..from]),
        )
    }
}

/// Whether nobody complains of a message that it holds. The entries that are not open are empty.
fn complaints_kept(window: &[u64; WORDS], members: usize, held: &mut [u64; MEMBERS]) -> bool {
    let p = window[POINT];
    hold(window, p, members, held);
    let (last, first) = column(window, COMPLAINTS).split_at(place(p, 0));
    let (held_first, held_last) = held.split_at(first.len());
    common(first, held_first) | common(last, held_last) == 0
}

/// All bits that are set in both of any two words with the same place.
fn common(a: &[u64], b: &[u64]) -> u64 {
    a.iter().zip(b).fold(0, |all, (a, b)| all | a & b)
}

/// Fills in who holds what: bit i of word o says whether member i holds message p + 1 + o.
pub fn hold(window: &[u64; WORDS], p: u64, members: usize, held: &mut [u64; MEMBERS]) {
    let (numbers, masks) = (column(window, NUMBERS), column(window, MASKS));
    for i in 0..members {
        held[i] = held_after(p, numbers[i], masks[i]);
    }
    turn(held);
}
