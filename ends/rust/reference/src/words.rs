//! The window's state in words of 64 bits, as the C header lays it out.

use crate::limits::PLACES;
use crate::marks::Marks;
use crate::window::{Entry, KeptCluster, Report, Window};

/// How many words a state has.
pub(crate) const WORDS: usize = 457;

const SENDING: usize = 0;
const RECEIVING: usize = 67;
const QUANTUM: usize = 134;
const SENT: usize = 135;
const POINT: usize = 136;
const REPORT_NUMBERS: usize = 137;
const REPORT_MASKS: usize = 201;
const HAS_REPORTED: usize = 265;
const RESEND_COUNTS: usize = 329;
const COMPLAINTS: usize = 393;

/// A cluster's fields, counted from the cluster's first word.
const MEMBERS: usize = 0;
const U: usize = 1;
const R: usize = 2;
const SHARES: usize = 3;

impl Window {
    /// The state that the words say; none where a word is too large for its field.
    pub fn from_words(words: &[u64; WORDS]) -> Option<Window> {
        let mut reports = [Report {
            marks: Marks { number: 0, mask: 0 },
            has_reported: false,
        }; PLACES];
        let mut entries = [Entry {
            count: 0,
            complaints: [false; PLACES],
        }; PLACES];
        for i in 0..PLACES {
            reports[i].marks = Marks {
                number: words[REPORT_NUMBERS + i],
                mask: words[REPORT_MASKS + i],
            };
            reports[i].has_reported = flag(words[HAS_REPORTED + i])?;
            entries[i].count = number_of_32_bits(words[RESEND_COUNTS + i])?;
            entries[i].complaints = members_of(words[COMPLAINTS + i]);
        }
        Some(Window {
            sending: cluster_from_words(&words[SENDING..])?,
            receiving: cluster_from_words(&words[RECEIVING..])?,
            q: number_of_32_bits(words[QUANTUM])?,
            sent: words[SENT],
            point: words[POINT],
            reports,
            entries,
        })
    }

    /// The words that say the state.
    pub fn to_words(&self) -> [u64; WORDS] {
        let mut words = [0; WORDS];
        cluster_to_words(&self.sending, &mut words[SENDING..]);
        cluster_to_words(&self.receiving, &mut words[RECEIVING..]);
        words[QUANTUM] = u64::from(self.q);
        words[SENT] = self.sent;
        words[POINT] = self.point;
        for i in 0..PLACES {
            words[REPORT_NUMBERS + i] = self.reports[i].marks.number;
            words[REPORT_MASKS + i] = self.reports[i].marks.mask;
            words[HAS_REPORTED + i] = u64::from(self.reports[i].has_reported);
            words[RESEND_COUNTS + i] = u64::from(self.entries[i].count);
            words[COMPLAINTS + i] = word_of(&self.entries[i].complaints);
        }
        words
    }
}

fn cluster_from_words(words: &[u64]) -> Option<KeptCluster> {
    let mut shares = [0; PLACES];
    for (share, &word) in shares.iter_mut().zip(&words[SHARES..]) {
        *share = number_of_32_bits(word)?;
    }
    Some(KeptCluster {
        members: number_of_32_bits(words[MEMBERS])?,
        u: number_of_32_bits(words[U])?,
        r: number_of_32_bits(words[R])?,
        shares,
    })
}

fn cluster_to_words(cluster: &KeptCluster, words: &mut [u64]) {
    words[MEMBERS] = u64::from(cluster.members);
    words[U] = u64::from(cluster.u);
    words[R] = u64::from(cluster.r);
    for (word, &share) in words[SHARES..].iter_mut().zip(&cluster.shares) {
        *word = u64::from(share);
    }
}

fn number_of_32_bits(word: u64) -> Option<u32> {
    u32::try_from(word).ok()
}

/// "Whether a member has reported is 0 or 1."
fn flag(word: u64) -> Option<bool> {
    match word {
        0 => Some(false),
        1 => Some(true),
        _ => None,
    }
}

/// Bit i stands for member i.
fn members_of(word: u64) -> [bool; PLACES] {
    std::array::from_fn(|member| (word >> member) & 1 == 1)
}

fn word_of(members: &[bool; PLACES]) -> u64 {
    members
        .iter()
        .enumerate()
        .map(|(member, &named)| u64::from(named) << member)
        .sum()
}
