//! The receiving member.

use crate::raw::{self, HOLDINGS_WORDS};
use crate::Refusal;

/// What one receiving member holds: every message up to c, and those that its mask marks. Always well formed.
#[derive(Clone, Copy, Debug, PartialEq, Eq)]
pub struct Holdings {
    words: [u64; HOLDINGS_WORDS],
}

/// A receiving member's report.
#[derive(Clone, Copy, Debug, PartialEq, Eq)]
pub struct Report {
    /// c: every message up to it is held.
    pub number: u64,
    /// Bit b speaks of message c + 1 + b.
    pub mask: u64,
}

impl Holdings {
    /// The holdings of a member that has received nothing.
    pub fn fresh() -> Holdings {
        let mut words = [0; HOLDINGS_WORDS];
        raw::fresh(&mut words);
        Holdings { words }
    }

    /// The holdings in these two words, c and the mask; any words. Refusal: 17.
    pub fn from_words(words: [u64; HOLDINGS_WORDS]) -> Result<Holdings, Refusal> {
        Refusal::check(raw::receiver_report(&words, &mut [0; 2]))?;
        Ok(Holdings { words })
    }

    /// c and the mask, as they are written to a disk.
    pub fn words(&self) -> [u64; HOLDINGS_WORDS] {
        self.words
    }

    /// Message k arrives. One that is already held changes nothing. Refusals: 6, 18.
    pub fn arrive(&mut self, k: u64) -> Result<(), Refusal> {
        Refusal::check(raw::arrive(&mut self.words, k))
    }

    /// The member's report.
    pub fn report(&self) -> Report {
        let mut answer = [0; 2];
        let number = raw::receiver_report(&self.words, &mut answer);
        Refusal::check(number).expect("the holdings are well formed");
        let [number, mask] = answer;
        Report { number, mask }
    }
}

/// As [`Holdings::fresh`].
impl Default for Holdings {
    fn default() -> Holdings {
        Holdings::fresh()
    }
}
