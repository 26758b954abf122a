//! Windows to begin with, shared by the pack and the random seasons.

use crate::answer::Answer;
use crate::call::{Call, Link};
use crate::end::{run, Reference};
use crate::layout::{Words, HAS_REPORTED, POINT, REPORT_NUMBERS, SENT};

/// The document's limit of message numbers.
pub const LAST_MESSAGE: u64 = 1_000_000_000_000;

/// The room that a report's output needs.
pub const REPORT_BYTES: usize = 1_024;

/// The reference's answer to a call that it accepts.
pub fn accepted(call: Call) -> Answer {
    let answer = run(&Reference, &call);
    assert_eq!(answer.returned, 0, "{call}");
    answer
}

pub fn opened(link: &Link) -> Box<Words> {
    accepted(Call::Open { link: link.clone() }).window()
}

/// An opened window in which every receiving member has reported messages 1 to `number`, all of them sent and
/// collected.
pub fn collected(link: &Link, number: u64) -> Box<Words> {
    let mut window = opened(link);
    window[SENT] = number;
    window[POINT] = number;
    for member in 0..link.receiving.shares.len() {
        window[REPORT_NUMBERS + member] = number;
        window[HAS_REPORTED + member] = 1;
    }
    window
}
