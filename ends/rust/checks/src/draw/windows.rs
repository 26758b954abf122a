//! Random windows that no season need ever reach, reports for them, and damage.

use crate::call::Link;
use crate::layout::*;
use crate::random::Random;
use crate::states::{collected, LAST_MESSAGE};

/// Bits 1 to 63 of messages up to S, for a report with this number.
fn allowed(number: u64, sent: u64) -> u64 {
    let above = sent.saturating_sub(number).min(64);
    let bits = if above == 64 { u64::MAX } else { (1 << above) - 1 };
    bits & !1
}

fn holds(window: &Words, member: usize, k: u64) -> bool {
    let (number, mask) = (window[REPORT_NUMBERS + member], window[REPORT_MASKS + member]);
    k <= number || (k - number - 1 < 64 && (mask >> (k - number - 1)) & 1 == 1)
}

/// The message numbers from which windows begin: low, far on, or near the limit.
pub fn beginning(random: &Random) -> u64 {
    match random.between(0, 4) {
        0 | 1 => 0,
        2 => random.between(0, 1_000),
        3 => random.between(0, LAST_MESSAGE),
        _ => LAST_MESSAGE - random.between(0, 150),
    }
}

/// A well-formed window with random reports, counts and complaints, built by the document's clauses.
pub fn window(random: &Random, link: &Link) -> Box<Words> {
    let beginning = beginning(random);
    let mut window = collected(link, beginning);
    let width = random.pick(&[0, 1, 63, 64, random.between(0, 64)]);
    window[SENT] = (beginning + width).min(LAST_MESSAGE);
    for member in 0..link.receiving.shares.len() {
        draw_report(random, &mut window, member, beginning);
    }
    window[POINT] = point(&window, link);
    let (low, high) = random.pick(&[(0, 0), (0, 5), (253, 255), (0, 255)]);
    let all_complain = random.chance(30);
    for k in window[POINT] + 1..=window[SENT] {
        let place = ((k - 1) % 64) as usize;
        window[RESEND_COUNTS + place] = random.between(low, high);
        let complaining = if all_complain { u64::MAX } else { random.bits() };
        for member in 0..link.receiving.shares.len() {
            if !holds(&window, member, k) {
                window[COMPLAINTS + place] |= complaining & (1 << member);
            }
        }
    }
    window
}

/// A report that holds at least what all have held from the beginning; before any message, perhaps none.
fn draw_report(random: &Random, window: &mut Words, member: usize, beginning: u64) {
    let sent = window[SENT];
    if beginning == 0 && random.chance(30) {
        window[HAS_REPORTED + member] = 0;
        return;
    }
    let number = random.pick(&[beginning, beginning, sent, random.between(beginning, sent)]);
    window[REPORT_NUMBERS + member] = number;
    window[REPORT_MASKS + member] = random.bits() & allowed(number, sent);
}

/// The collecting point of the reports: the number at which the members, highest number first, come to share u + 1.
fn point(window: &Words, link: &Link) -> u64 {
    let shares = link.receiving.shares.iter().map(|&share| u64::from(share));
    let mut reports: Vec<(u64, u64)> = shares
        .enumerate()
        .map(|(i, share)| (window[REPORT_NUMBERS + i], share))
        .collect();
    reports.sort_unstable_by_key(|&(number, _)| std::cmp::Reverse(number));
    let mut total = 0;
    for (number, share) in reports {
        total += share;
        if total > u64::from(link.receiving.u) {
            return number;
        }
    }
    0
}

/// A report that holds what the member's former one held, and perhaps more: number and mask.
pub fn grown_report(random: &Random, window: &Words, member: usize) -> (u64, u64) {
    let sent = window[SENT];
    let former = window[REPORT_NUMBERS + member];
    let number = match random.between(0, 3) {
        0 | 1 => former,
        2 => random.between(former, sent),
        _ => random.between(former, sent.min(former + 2)),
    };
    let kept = (0..64).filter(|bit| number + 1 + bit <= sent && holds(window, member, number + 1 + bit));
    let mask = kept.fold(0, |mask, bit| mask | 1 << bit);
    let more = if random.chance(50) { random.bits() } else { 0 };
    // Where bit 0 would have to be set, the report is one that must be refused.
    (number, mask | more & allowed(number, sent))
}

/// Alters one word: by little, by a bit, to another word's value, or to anything.
pub fn damage(random: &Random, window: &mut Words) {
    let single = [
        SENDING_MEMBERS,
        SENDING_U,
        SENDING_R,
        RECEIVING_MEMBERS,
        RECEIVING_U,
        RECEIVING_R,
        QUANTUM,
        SENT,
        POINT,
    ];
    let lists = [
        SENDING_SHARES,
        RECEIVING_SHARES,
        REPORT_NUMBERS,
        REPORT_MASKS,
        HAS_REPORTED,
        RESEND_COUNTS,
        COMPLAINTS,
    ];
    let offset = match random.between(0, 2) {
        0 => random.pick(&single),
        1 => random.pick(&lists) + random.place(8),
        _ => random.place(WORDS),
    };
    let word = window[offset];
    window[offset] = match random.between(0, 6) {
        0 => word.wrapping_add(1),
        1 => word.wrapping_sub(1),
        2 => word ^ (1 << random.between(0, 63)),
        3 => word ^ (1 << random.between(0, 5)),
        4 => window[random.place(WORDS)],
        5 => word | random.pick(&[1 << 32, 1 << 63]),
        _ => random.wild(),
    };
}

/// Words that are no state at all.
pub fn noise(random: &Random) -> Box<Words> {
    let narrow = random.chance(50);
    Box::new(std::array::from_fn(|_| {
        if narrow {
            random.between(0, 3)
        } else {
            random.wild()
        }
    }))
}
