//! Each clause of "well formed", broken one at a time in a state that is otherwise well formed; and states just inside
//! a limit.

use super::inputs::{changed, collected, sent, uneven, worn, LAST_MESSAGE};
use crate::layout::*;

/// Too large for a field of 32 bits, though its lower 32 bits would do.
const ABOVE_32_BITS: u64 = 1 << 32;

/// A state: what is told of it, and its words.
pub type Told = (&'static str, Box<Words>);

/// The place of message k.
fn place(k: usize) -> usize {
    (k - 1) % PLACES
}

fn alter(changes: &[(&'static str, usize, u64)]) -> Vec<Told> {
    let state = worn();
    changes
        .iter()
        .map(|&(about, offset, word)| (about, changed(&state, &[(offset, word)])))
        .collect()
}

/// States that are not well formed. All but the last few differ from a well-formed state in one word.
pub fn broken_states() -> Vec<Told> {
    [
        broken_sending(),
        broken_receiving(),
        broken_numbers(),
        broken_reports(),
        broken_entries(),
        broken_wholly(),
    ]
    .concat()
}

fn broken_sending() -> Vec<Told> {
    alter(&[
        (
            "sending cluster: no members, with shares past the end",
            SENDING_MEMBERS,
            0,
        ),
        ("sending cluster: a share past the end", SENDING_MEMBERS, 2),
        ("sending cluster: a member with share 0", SENDING_MEMBERS, 4),
        ("sending cluster: 65 members", SENDING_MEMBERS, 65),
        (
            "sending cluster: members too large for 32 bits",
            SENDING_MEMBERS,
            ABOVE_32_BITS + 3,
        ),
        ("sending cluster: members of 64 bits", SENDING_MEMBERS, u64::MAX),
        ("sending cluster: share 0", SENDING_SHARES + 1, 0),
        ("sending cluster: share above 1,000,000", SENDING_SHARES, 1_000_001),
        (
            "sending cluster: share too large for 32 bits",
            SENDING_SHARES,
            ABOVE_32_BITS + 3,
        ),
        ("sending cluster: share just past the end", SENDING_SHARES + 3, 1),
        ("sending cluster: share in the last place", SENDING_SHARES + 63, 1),
        (
            "sending cluster: share past the end too large for 32 bits",
            SENDING_SHARES + 63,
            ABOVE_32_BITS,
        ),
        ("sending cluster: D below 2u + r + 1", SENDING_U, 3),
        ("sending cluster: r above u", SENDING_U, 0),
        ("sending cluster: u too large for 32 bits", SENDING_U, ABOVE_32_BITS + 1),
        (
            "sending cluster: u that makes 2u + r + 1 overflow 32 bits",
            SENDING_U,
            1 << 31,
        ),
        ("sending cluster: r above u, by r", SENDING_R, 2),
        ("sending cluster: r too large for 32 bits", SENDING_R, ABOVE_32_BITS + 1),
    ])
}

fn broken_receiving() -> Vec<Told> {
    alter(&[
        (
            "receiving cluster: no members, with shares past the end",
            RECEIVING_MEMBERS,
            0,
        ),
        ("receiving cluster: a share past the end", RECEIVING_MEMBERS, 3),
        ("receiving cluster: a member with share 0", RECEIVING_MEMBERS, 5),
        ("receiving cluster: 65 members", RECEIVING_MEMBERS, 65),
        (
            "receiving cluster: members too large for 32 bits",
            RECEIVING_MEMBERS,
            ABOVE_32_BITS + 4,
        ),
        ("receiving cluster: members of 64 bits", RECEIVING_MEMBERS, u64::MAX),
        ("receiving cluster: share 0", RECEIVING_SHARES + 2, 0),
        (
            "receiving cluster: share above 1,000,000",
            RECEIVING_SHARES + 2,
            1_000_001,
        ),
        (
            "receiving cluster: share too large for 32 bits",
            RECEIVING_SHARES + 2,
            ABOVE_32_BITS + 1,
        ),
        ("receiving cluster: share just past the end", RECEIVING_SHARES + 4, 1),
        ("receiving cluster: share in the last place", RECEIVING_SHARES + 63, 1),
        (
            "receiving cluster: share past the end too large for 32 bits",
            RECEIVING_SHARES + 63,
            ABOVE_32_BITS,
        ),
        ("receiving cluster: D below 2u + r + 1", RECEIVING_U, 3),
        ("receiving cluster: r above u", RECEIVING_U, 0),
        (
            "receiving cluster: u too large for 32 bits",
            RECEIVING_U,
            ABOVE_32_BITS + 2,
        ),
        ("receiving cluster: r above u, by r", RECEIVING_R, 3),
        (
            "receiving cluster: r too large for 32 bits",
            RECEIVING_R,
            ABOVE_32_BITS + 1,
        ),
    ])
}

fn broken_numbers() -> Vec<Told> {
    let mut states = alter(&[
        ("q is 0", QUANTUM, 0),
        ("q is above 1,024", QUANTUM, 1_025),
        ("q is too large for 32 bits", QUANTUM, ABOVE_32_BITS + 5),
        ("S is below p", SENT, 0),
        ("S is above p + 64", SENT, 66),
        ("S is of 64 bits", SENT, u64::MAX),
        ("S is below what the reports hold", SENT, 5),
        ("p is below the point that the reports give", POINT, 0),
        ("p is above the point that the reports give", POINT, 2),
        ("p is above S", POINT, 7),
        ("p is of 64 bits", POINT, u64::MAX),
        ("another u: the reports give another point", RECEIVING_U, 1),
        ("another share: the reports give another point", RECEIVING_SHARES, 3),
    ]);
    let last = sent(collected(&uneven(), LAST_MESSAGE - 3), 3);
    states.push((
        "S is above 1,000,000,000,000",
        changed(&last, &[(SENT, LAST_MESSAGE + 1)]),
    ));
    states.push((
        "S, p and the reports are above 1,000,000,000,000",
        collected(&uneven(), LAST_MESSAGE + 1),
    ));
    states.push(("S, p and the reports are of 64 bits", collected(&uneven(), u64::MAX)));
    states
}

fn broken_reports() -> Vec<Told> {
    alter(&[
        ("a report with bit 0 set", REPORT_MASKS, 0xb),
        ("a report that holds 7, above S, by its number", REPORT_NUMBERS, 7),
        ("a report that holds 7, above S, by a mark", REPORT_MASKS, 0x1a),
        (
            "a report that holds 66, above S, by bit 63",
            REPORT_MASKS,
            1 << 63 | 0xa,
        ),
        ("a report with a number of 64 bits", REPORT_NUMBERS, u64::MAX),
        ("a report whose marks pass 64 bits", REPORT_NUMBERS + 3, u64::MAX - 1),
        ("a member that has not reported, with a number", REPORT_NUMBERS + 2, 1),
        ("a member that has not reported, with a mark", REPORT_MASKS + 2, 2),
        ("a member with a report, marked as not having reported", HAS_REPORTED, 0),
        ("has reported: 2", HAS_REPORTED, 2),
        (
            "has reported: too large for a flag, though its lower 32 bits are 1",
            HAS_REPORTED + 1,
            ABOVE_32_BITS + 1,
        ),
        ("has reported: 64 bits", HAS_REPORTED + 3, u64::MAX),
        (
            "has reported: 2, of a member that has not reported",
            HAS_REPORTED + 2,
            2,
        ),
        ("just past the cluster's end, a report's number", REPORT_NUMBERS + 4, 1),
        ("just past the cluster's end, a report's mask", REPORT_MASKS + 4, 2),
        ("just past the cluster's end, marked as reported", HAS_REPORTED + 4, 1),
        ("in the last place, a report's number", REPORT_NUMBERS + 63, 1),
        ("in the last place, a report's mask", REPORT_MASKS + 63, 1),
        ("in the last place, marked as reported", HAS_REPORTED + 63, 1),
        ("in the last place, has reported: 2", HAS_REPORTED + 63, 2),
    ])
}

fn broken_entries() -> Vec<Told> {
    alter(&[
        (
            "a complaint of a member just past the cluster's end",
            COMPLAINTS + place(2),
            1 << 4,
        ),
        (
            "a complaint of member 63, which does not exist",
            COMPLAINTS + place(2),
            1 << 63,
        ),
        (
            "a complaint of member 0, which holds 2 by its number",
            COMPLAINTS + place(2),
            1,
        ),
        (
            "a complaint of member 0, which holds 4 by a mark",
            COMPLAINTS + place(4),
            1,
        ),
        ("complaints of all bits", COMPLAINTS + place(6), u64::MAX),
        ("a resend count above 255", RESEND_COUNTS + place(2), 256),
        (
            "a resend count too large for 32 bits",
            RESEND_COUNTS + place(2),
            ABOVE_32_BITS,
        ),
        (
            "the collected message 1 has a resend count",
            RESEND_COUNTS + place(1),
            1,
        ),
        ("the collected message 1 has a complaint", COMPLAINTS + place(1), 1 << 2),
        ("message 7, not sent, has a resend count", RESEND_COUNTS + place(7), 1),
        ("message 7, not sent, has a complaint", COMPLAINTS + place(7), 1 << 2),
        ("the last place has a resend count", RESEND_COUNTS + 63, 255),
        ("the last place has a complaint", COMPLAINTS + 63, 1 << 2),
    ])
}

fn broken_wholly() -> Vec<Told> {
    vec![
        (
            "a state of zeros, as a refused opening hands it back",
            Box::new([0; WORDS]),
        ),
        ("all words 1", Box::new([1; WORDS])),
        ("all bits set", Box::new([u64::MAX; WORDS])),
    ]
}

/// Well-formed states, most of them one step inside a limit that a broken one passes.
pub fn sound_states() -> Vec<Told> {
    let mut states = alter(&[
        ("sending cluster: share 1,000,000", SENDING_SHARES, 1_000_000),
        ("sending cluster: u as large as D = 2u + r + 1 allows", SENDING_U, 2),
        ("sending cluster: r = 0", SENDING_R, 0),
        (
            "receiving cluster: share 1,000,000, of a member that leaves the point as it is",
            RECEIVING_SHARES + 1,
            1_000_000,
        ),
        (
            "receiving cluster: r as large as r ≤ u and D = 2u + r + 1 allow",
            RECEIVING_R,
            2,
        ),
        ("q is 1,024", QUANTUM, 1_024),
        ("S = p + 64", SENT, 65),
        (
            "a member that has reported, with an all-zero report",
            HAS_REPORTED + 2,
            1,
        ),
        (
            "a complaint of a member that has not reported",
            COMPLAINTS + place(6),
            1 << 2,
        ),
        ("a resend count of 255", RESEND_COUNTS + place(2), 255),
        ("a complaint that is gone", COMPLAINTS + place(2), 0),
    ]);
    states.push(("unchanged", worn()));
    states.push(("S = 1,000,000,000,000", sent(collected(&uneven(), LAST_MESSAGE - 3), 3)));
    states.push(("S = p = 1,000,000,000,000", collected(&uneven(), LAST_MESSAGE)));
    states
}
