//! The sending window.

use crate::raw::{self, REPORT_BYTES, VERDICT_BYTES, WINDOW_WORDS};
use crate::{Cluster, Refusal, Verdict};

/// Where the state keeps S.
const SENT: usize = 135;

/// Where it keeps p.
const POINT: usize = 136;

/// Where the 64 resend counts start.
const RESEND_COUNTS: usize = 329;

/// A window between two clusters, with at most 64 messages open. Its state is always well formed.
#[derive(Clone, Debug, PartialEq, Eq)]
pub struct Window {
    words: Box<[u64; WINDOW_WORDS]>,
}

impl Window {
    /// A window in which nothing is sent or reported. Refusals: 1, 2, 3 of the sending cluster, then of the receiving, 4.
    pub fn open(sending: Cluster, receiving: Cluster, q: u32) -> Result<Window, Refusal> {
        let (s, r) = (sending, receiving);
        let mut words = Box::new([0; WINDOW_WORDS]);
        Refusal::check(raw::open(s.shares, s.u, s.r, r.shares, r.u, r.r, q, &mut words))?;
        Ok(Window { words })
    }

    /// The window with this state, as read back from a disk; any words. Refusal: 17.
    pub fn from_words(words: [u64; WINDOW_WORDS]) -> Result<Window, Refusal> {
        Refusal::check(raw::judge(&words))?;
        Ok(Window { words: Box::new(words) })
    }

    /// The state, as it is written to a disk.
    pub fn words(&self) -> &[u64; WINDOW_WORDS] {
        &self.words
    }

    /// Sends message k, which must be S + 1 and at most p + 64. Refusals: 6, 10, 9.
    pub fn send(&mut self, k: u64) -> Result<(), Refusal> {
        Refusal::check(raw::send(&mut self.words, k))
    }

    /// Takes a receiving member's report: cumulative number and mask, bit b of which speaks of message number + 1 + b. Gives
    /// the verdicts on messages that are lost, in the order of their numbers. Refusals: 8, 12, 11, 13.
    pub fn report(&mut self, member: u32, number: u64, mask: u64) -> Result<Vec<Verdict>, Refusal> {
        let mut out = [0; REPORT_BYTES];
        let mut answer = [0];
        Refusal::check(raw::report(
            &mut self.words,
            member,
            number,
            mask,
            &mut out,
            &mut answer,
        ))?;
        let (verdicts, _) = out.as_chunks::<VERDICT_BYTES>();
        Ok(verdicts[..answer[0] as usize].iter().map(Verdict::from_bytes).collect())
    }

    /// S: the highest sent number, 0 before any.
    pub fn sent(&self) -> u64 {
        self.words[SENT]
    }

    /// p: the collecting point.
    pub fn point(&self) -> u64 {
        self.words[POINT]
    }

    /// Whether the order with number k may be dropped: orders up to p may.
    pub fn may_drop(&self, k: u64) -> bool {
        (1..=self.point()).contains(&k)
    }

    /// How often message k was sent again, if it is open: p < k ≤ S.
    pub fn resend_count(&self, k: u64) -> Option<u32> {
        let open = self.point() < k && k <= self.sent();
        open.then(|| self.words[RESEND_COUNTS + ((k - 1) % 64) as usize] as u32)
    }
}
