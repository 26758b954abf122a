//! Where the state keeps what: the window's 457 words.

use crate::limits::MEMBERS;

/// The words of a state.
pub const WORDS: usize = 457;

/// The sending cluster: its members, u, r and 64 shares.
pub const SENDING: usize = 0;

/// The receiving cluster, laid out as the sending one.
pub const RECEIVING: usize = 67;

/// From the start of a cluster to its u.
pub const U: usize = 1;

/// From the start of a cluster to its r.
pub const R: usize = 2;

/// From the start of a cluster to its shares.
pub const SHARES: usize = 3;

/// The quantum.
pub const QUANTUM: usize = 134;

/// S, the highest sent number.
pub const SENT: usize = 135;

/// p, the collecting point.
pub const POINT: usize = 136;

/// The cumulative numbers of the members' latest reports.
pub const NUMBERS: usize = 137;

/// Their masks.
pub const MASKS: usize = 201;

/// 1 for each member that has reported.
pub const HEARD: usize = 265;

/// How often each open message was sent again.
pub const COUNTS: usize = 329;

/// The set of members that complain of each open message.
pub const COMPLAINTS: usize = 393;

/// The 64 words from a place on.
pub fn column(window: &[u64; WORDS], at: usize) -> &[u64; MEMBERS] {
    window[at..].first_chunk().expect("each column lies within the state")
}

/// The place of message p + 1 + o.
pub fn place(p: u64, o: u64) -> usize {
    (p.wrapping_add(o) % 64) as usize
}
