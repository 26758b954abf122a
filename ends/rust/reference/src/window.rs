//! The sending window's state, what it says of its messages, and the calls that open it, judge it and send.

use crate::clusters::Cluster;
use crate::limits::{judge_message, PLACES};
use crate::marks::Marks;
use crate::pairs::judge_pair_of_clusters;
use crate::refusals::{number, NOT_FORMED, NOT_NEXT, WINDOW_FULL};
use crate::well_formed::well_formed;
use crate::words::WORDS;

/// A cluster as the state keeps it.
pub(crate) struct KeptCluster {
    pub members: u32,
    pub u: u32,
    pub r: u32,
    pub shares: [u32; PLACES],
}

/// The latest report of a receiving member.
#[derive(Clone, Copy)]
pub(crate) struct Report {
    pub marks: Marks,
    pub has_reported: bool,
}

/// A message in the window: how often it was sent again, and for each member whether it complains of the message.
#[derive(Clone, Copy)]
pub(crate) struct Entry {
    pub count: u32,
    pub complaints: [bool; PLACES],
}

/// "The state holds both clusters, q, the highest sent number S (0 at opening), the collecting point p, a table with
/// one report for each of 64 receiving members, and 64 window entries."
pub(crate) struct Window {
    pub sending: KeptCluster,
    pub receiving: KeptCluster,
    pub q: u32,
    pub sent: u64,
    pub point: u64,
    pub reports: [Report; PLACES],
    pub entries: [Entry; PLACES],
}

/// "The entry starts with resend count 0 and no complaints."
pub(crate) const EMPTY_ENTRY: Entry = Entry {
    count: 0,
    complaints: [false; PLACES],
};

/// "Message k has place (k − 1) mod 64."
pub(crate) fn place(k: u64) -> usize {
    ((k - 1) % PLACES as u64) as usize
}

impl KeptCluster {
    fn keep(cluster: &Cluster) -> KeptCluster {
        let mut shares = [0; PLACES];
        shares[..cluster.shares.len()].copy_from_slice(cluster.shares);
        KeptCluster {
            members: cluster.shares.len() as u32,
            u: cluster.u,
            r: cluster.r,
            shares,
        }
    }

    /// The cluster without the places past its end; there are at most 64 members.
    pub fn lent(&self) -> Cluster<'_> {
        Cluster {
            shares: &self.shares[..self.members as usize],
            u: self.u,
            r: self.r,
        }
    }
}

impl Window {
    fn new(sending: &Cluster, receiving: &Cluster, q: u32) -> Window {
        let silent = Report {
            marks: Marks { number: 0, mask: 0 },
            has_reported: false,
        };
        Window {
            sending: KeptCluster::keep(sending),
            receiving: KeptCluster::keep(receiving),
            q,
            sent: 0,
            point: 0,
            reports: [silent; PLACES],
            entries: [EMPTY_ENTRY; PLACES],
        }
    }

    /// The state that the words say, if it is well formed.
    pub fn accepted(words: &[u64; WORDS]) -> Result<Window, u32> {
        Window::from_words(words).filter(well_formed).ok_or(NOT_FORMED)
    }

    /// "p is the largest k such that members whose cumulative number is at least k have share u + 1 or more. (u and r
    /// here are the receiving cluster's.)"
    ///
    /// The share falls only just above a reported number, so the largest k is one of these, or 0, which every member
    /// reaches.
    pub fn point_of_reports(&self) -> u64 {
        let receiving = self.receiving.lent();
        let numbers = self.reports[..receiving.shares.len()]
            .iter()
            .map(|report| report.marks.number);
        let reached = |k: &u64| {
            let share = receiving.share_of(|member| self.reports[member].marks.number >= *k);
            share >= u64::from(receiving.u) + 1
        };
        numbers.filter(reached).max().unwrap_or(0)
    }

    /// "Message k is QUACKed when members holding it, by their latest reports, have share u + 1 or more."
    pub fn quacked(&self, k: u64) -> bool {
        let receiving = self.receiving.lent();
        receiving.share_of(|member| self.reports[member].marks.holds(k)) >= u64::from(receiving.u) + 1
    }

    /// The messages that are in the window.
    pub fn open_messages(&self) -> std::ops::RangeInclusive<u64> {
        self.point + 1..=self.sent
    }
}

/// Opens a window. Refusals in the order for pairs; "a refused opening hands back a state of zeros".
pub fn open(ss: &[u32], su: u32, sr: u32, rs: &[u32], ru: u32, rr: u32, q: u32, window: &mut [u64; WORDS]) -> u32 {
    let sending = Cluster {
        shares: ss,
        u: su,
        r: sr,
    };
    let receiving = Cluster {
        shares: rs,
        u: ru,
        r: rr,
    };
    let judged = judge_pair_of_clusters(&sending, &receiving, q);
    *window = match judged {
        Ok(()) => Window::new(&sending, &receiving, q).to_words(),
        Err(_) => [0; WORDS],
    };
    number(judged)
}

/// Judges a state: 17 where it is not well formed.
pub fn judge(window: &[u64; WORDS]) -> u32 {
    number(Window::accepted(window).map(|_| ()))
}

/// Sends message k. Refusals in the order 17, 6, 10, 9.
pub fn send(window: &mut [u64; WORDS], k: u64) -> u32 {
    number(accepted_send(window, k))
}

/// "Sending k: k must be S + 1, and k at most p + 64."
fn accepted_send(words: &mut [u64; WORDS], k: u64) -> Result<(), u32> {
    let mut window = Window::accepted(words)?;
    judge_message(k)?;
    if k != window.sent + 1 {
        return Err(NOT_NEXT);
    }
    if k > window.point + PLACES as u64 {
        return Err(WINDOW_FULL);
    }
    window.sent = k;
    window.entries[place(k)] = EMPTY_ENTRY;
    *words = window.to_words();
    Ok(())
}
