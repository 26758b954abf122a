//! Clusters and states to measure on.

use crate::calls::{Words, TUNED};
use havdorlek::raw::WINDOW_WORDS;

/// The quantum of every case.
pub const QUANTUM: u32 = 100;

/// The collecting point of the full windows.
pub const POINT: u64 = 1_000;

/// Where the words of a state stand that are set here.
const SENT: usize = 135;
const POINT_WORD: usize = 136;
const NUMBERS: usize = 137;
const MASKS: usize = 201;
const HEARD: usize = 265;
const COUNTS: usize = 329;
const COMPLAINTS: usize = 393;

/// A cluster with uneven shares that bears as many failures and lies as it can: u = r.
pub struct Cluster {
    pub shares: Vec<u32>,
    pub u: u32,
    pub r: u32,
}

fn cluster(members: usize, least: u32, spread: u32) -> Cluster {
    let shares: Vec<u32> = (0..members as u32).map(|i| least + i * 37 % spread).collect();
    let u = (shares.iter().sum::<u32>() - 1) / 3;
    Cluster { shares, u, r: u }
}

/// The sending cluster.
pub fn sending(members: usize) -> Cluster {
    cluster(members, 100, 97)
}

/// The receiving cluster.
pub fn receiving(members: usize) -> Cluster {
    cluster(members, 50, 89)
}

/// A window in which nothing is sent.
pub fn empty(members: usize) -> Words {
    let (s, r) = (sending(members), receiving(members));
    let mut words = [0; WINDOW_WORDS];
    let refusal = TUNED.open(&s.shares, s.u, s.r, &r.shares, r.u, r.r, QUANTUM, &mut words);
    assert_eq!(refusal, 0, "the clusters are accepted");
    words
}

/// A window with this many messages open after the point, which every member has reported, and no complaints.
pub fn quiet(members: usize, open: u64) -> Words {
    let mut words = empty(members);
    words[SENT] = POINT + open;
    words[POINT_WORD] = POINT;
    words[NUMBERS..][..members].fill(POINT);
    words[HEARD..][..members].fill(1);
    words
}

/// A full window of whose messages, all but the last, member 1 complains: not enough for a verdict.
pub fn complaining(members: usize) -> Words {
    let mut words = quiet(members, 64);
    words[MASKS + 1] = 1 << 63;
    for k in POINT + 1..POINT + 64 {
        words[COMPLAINTS + place(k)] = 1 << 1;
    }
    words
}

/// A full window all of whose messages every member but member 0 complains of, sent again so often already.
pub fn lost(members: usize, resends: u64) -> Words {
    let mut words = quiet(members, 64);
    words[COUNTS..][..64].fill(resends);
    words[COMPLAINTS..][..64].fill(u64::MAX >> (64 - members) & !1);
    words
}

/// A full window that one more report of all messages empties, and the member whose report that is.
pub fn nearly_collected(members: usize) -> (Words, u32) {
    let mut words = quiet(members, 64);
    let Cluster { shares, u, .. } = receiving(members);
    let mut reached = 0;
    let mut member = 0;
    while reached + shares[member] <= u {
        reached += shares[member];
        words[NUMBERS + member] = POINT + 64;
        member += 1;
    }
    (words, member as u32)
}

fn place(k: u64) -> usize {
    ((k - 1) % 64) as usize
}
