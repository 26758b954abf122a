//! Reports from receiving members.

use crate::due::due;
use crate::formed::{formed, hold, Formed};
use crate::layout::{
    column, place, COMPLAINTS, COUNTS, HEARD, MASKS, NUMBERS, POINT, RECEIVING, SENT, SHARES, U, WORDS,
};
use crate::limits::{MEMBERS, REPORT_BYTES};
use crate::marks::{bits, first, held_after, none_above, past, reach};
use crate::verdicts::write_verdicts;

/// What a member says.
#[derive(Clone, Copy)]
struct Said {
    member: usize,
    number: u64,
    mask: u64,
}

/// What an accepted report changes, as sets of offsets from the former point p: bit o speaks of message p + 1 + o.
struct Heard {
    /// The messages that are open after it.
    open: u64,
    /// Those that the member holds.
    holds: u64,
    /// Those that it holds for the first time.
    gains: u64,
    /// Those that it complains of.
    lacks: u64,
}

/// Takes a report: verdicts go into `out`, their count into `answer`. Refusals: 17, 5, 8, 12, 11, 13.
pub fn report(
    window: &mut [u64; WORDS],
    member: u32,
    number: u64,
    mask: u64,
    out: &mut [u8],
    answer: &mut [u64; 1],
) -> u32 {
    *answer = [0];
    let mut held = [0; MEMBERS];
    let Some(formed) = formed(window, &mut held) else {
        return 17;
    };
    let Some(out) = out.first_chunk_mut::<REPORT_BYTES>() else {
        return 5;
    };
    if member as usize >= formed.members {
        return 8;
    }
    let member = member as usize;
    let said = Said { member, number, mask };
    let refusal = said_refusal(window, said);
    if refusal == 0 {
        let p = window[POINT];
        let heard = hear(window, &formed, said);
        let lost = judge_open(window, p, &formed, &mut held, member, &heard);
        answer[0] = write_verdicts(window, p, lost, out);
    }
    refusal
}

/// What a report is refused with for what it says: 12, 11, 13.
fn said_refusal(window: &[u64; WORDS], said: Said) -> u32 {
    if said.mask & 1 != 0 {
        return 12;
    }
    if !none_above(said.number, said.mask, window[SENT]) {
        return 11;
    }
    let former = window[NUMBERS + said.member];
    // Bit 0 being clear, a lower number lacks the message after it, which the former report held.
    if said.number < former || past(window[MASKS + said.member], said.number - former) & !said.mask != 0 {
        return 13;
    }
    0
}

/// Stores a report, moves the point and empties what is collected.
fn hear(window: &mut [u64; WORDS], formed: &Formed, said: Said) -> Heard {
    let Said { member, number, mask } = said;
    let p = window[POINT];
    let again = window[HEARD + member] == 1 && window[NUMBERS + member] == number;
    let held = held_after(p, window[NUMBERS + member], window[MASKS + member]);
    let risen = risen_point(window, formed, said);
    window[NUMBERS + member] = number;
    window[MASKS + member] = mask;
    window[HEARD + member] = 1;
    window[POINT] = risen;
    for o in 0..risen - p {
        window[COUNTS + place(p, o)] = 0;
        window[COMPLAINTS + place(p, o)] = 0;
    }
    let open = first(formed.open) & !first(risen - p);
    let holds = held_after(p, number, mask);
    // What is not held up to the highest message that is.
    let gap = first((number + reach(mask)).saturating_sub(p));
    // A repeat is of the first open message alone.
    let repeat = if again && number == risen {
        open & open.wrapping_neg()
    } else {
        0
    };
    Heard {
        open,
        holds,
        gains: open & holds & !held,
        lacks: open & !holds & (gap | repeat),
    }
}

/// The point after a report. It rises where members above the former one now have share u + 1, to the highest number that
/// still has so much: numbers lie at most 64 above, a heap of shares for each.
fn risen_point(window: &[u64; WORDS], formed: &Formed, said: Said) -> u64 {
    let (p, u) = (window[POINT], window[RECEIVING + U]);
    let shares = column(window, RECEIVING + SHARES);
    let numbers = column(window, NUMBERS);
    let joins = said.number > p && numbers[said.member] <= p;
    let above = formed.above + if joins { shares[said.member] } else { 0 };
    if above <= u {
        return p;
    }
    let mut heaps = [0; MEMBERS + 1];
    for i in 0..formed.members {
        let number = if i == said.member { said.number } else { numbers[i] };
        heaps[number.saturating_sub(p) as usize] += shares[i];
    }
    let mut sum = 0;
    let rise = (1..=MEMBERS).rev().find(|&rise| {
        sum += heaps[rise];
        sum > u
    });
    p + rise.map_or(0, |rise| rise as u64)
}

/// Brings the complaints up to date and gives the offsets on which a verdict is due.
fn judge_open(
    window: &mut [u64; WORDS],
    p: u64,
    formed: &Formed,
    held: &mut [u64; MEMBERS],
    member: usize,
    heard: &Heard,
) -> u64 {
    let bit = 1 << member;
    bits(heard.gains).for_each(|o| window[COMPLAINTS + place(p, o)] &= !bit);
    bits(heard.lacks).for_each(|o| window[COMPLAINTS + place(p, o)] |= bit);
    if formed.complaints {
        bits(heard.holds).for_each(|o| held[o as usize] |= bit);
    } else if heard.lacks != 0 {
        hold(window, p, formed.members, held);
    } else {
        return 0;
    }
    due(window, p, formed.members, heard.open, held)
}
