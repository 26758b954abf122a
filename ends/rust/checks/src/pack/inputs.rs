//! Inputs that several files of the pack share.

use crate::call::{Call, Cluster, Link};
use crate::layout::{Words, SENT};
pub use crate::states::{accepted, collected, opened, LAST_MESSAGE, REPORT_BYTES};

/// The document's limit of shares.
pub const MOST_SHARE: u32 = 1_000_000;

pub fn cluster(shares: &[u32], u: u32, r: u32) -> Cluster {
    Cluster {
        shares: shares.to_vec(),
        u,
        r,
    }
}

pub fn link(sending: Cluster, receiving: Cluster, q: u32) -> Link {
    Link { sending, receiving, q }
}

/// "E is shares 1,1,1,1 with u = r = 1, on both sides, q 4."
pub fn e() -> Link {
    link(cluster(&[1; 4], 1, 1), cluster(&[1; 4], 1, 1), 4)
}

/// The clusters of the document's plan, q 3.
pub fn three_to_five() -> Link {
    link(cluster(&[1; 3], 1, 0), cluster(&[1; 5], 2, 0), 3)
}

/// Unequal shares, and bounds that differ between the clusters and from each other.
pub fn uneven() -> Link {
    link(cluster(&[3, 1, 2], 1, 1), cluster(&[2, 1, 1, 3], 2, 1), 5)
}

/// Two full clusters whose totals have no common divisor, so that the circle is as long as it can be made here.
pub fn full() -> Link {
    let mut shares = [MOST_SHARE; 64];
    shares[63] = MOST_SHARE - 1;
    link(
        cluster(&shares, 20_000_000, 20_000_000),
        cluster(&[MOST_SHARE; 64], 31_000_000, 1_000_000),
        1_024,
    )
}

/// The window after the next messages are sent.
pub fn sent(window: Box<Words>, messages: u64) -> Box<Words> {
    (0..messages).fold(window, |window, _| {
        let k = window[SENT] + 1;
        accepted(Call::Send { window, k }).window()
    })
}

/// The window after an accepted report.
pub fn reported(window: Box<Words>, member: u32, number: u64, mask: u64) -> Box<Words> {
    accepted(Call::Report {
        window,
        member,
        number,
        mask,
        room: REPORT_BYTES,
    })
    .window()
}

/// The window with other words at some places.
pub fn changed(window: &Words, changes: &[(usize, u64)]) -> Box<Words> {
    let mut window = Box::new(*window);
    for &(offset, word) in changes {
        window[offset] = word;
    }
    window
}

/// A window with some of everything: messages 1 to 6 are sent and 1 is collected, members 0, 1 and 3 have reported and
/// 2 has not, there are marks, complaints and resend counts.
pub fn worn() -> Box<Words> {
    let window = sent(opened(&uneven()), 6);
    let window = reported(window, 0, 2, 0xa);
    let window = reported(window, 3, 1, 0x6);
    reported(window, 1, 1, 0x8)
}
