//! Link records of 24 bytes.

use crate::raw::{self, RECORD_BYTES};
use crate::Refusal;

/// What a link record says. Range of member and number is judged by the call that uses them.
#[derive(Clone, Copy, Debug, PartialEq, Eq)]
pub enum Record {
    /// An unused place.
    Unused,
    /// A receiving member's report.
    Report {
        /// Who reports.
        member: u8,
        /// The cumulative number.
        number: u64,
        /// The mask.
        mask: u64,
    },
    /// The arrival of a message.
    Arrival {
        /// Where it arrives.
        member: u8,
        /// The message number.
        number: u64,
    },
    /// A private record. Its contents are not read.
    Private {
        /// Its kind, 128 to 255.
        kind: u8,
    },
}

impl Record {
    /// Reads a record from any bytes. Refusals: 16, 14, 15.
    pub fn read(bytes: &[u8]) -> Result<Record, Refusal> {
        let mut answer = [0; 4];
        Refusal::check(raw::read(bytes, &mut answer))?;
        let [kind, member, number, mask] = answer;
        // Kind and member are bytes of the record.
        let (kind, member) = (kind as u8, member as u8);
        Ok(match kind {
            0 => Record::Unused,
            1 => Record::Report { member, number, mask },
            2 => Record::Arrival { member, number },
            _ => Record::Private { kind },
        })
    }

    /// The record's bytes. A private record is not writable: refusal 14.
    pub fn write(self) -> Result<[u8; RECORD_BYTES], Refusal> {
        let (kind, member, number, mask) = match self {
            Record::Unused => (0, 0, 0, 0),
            Record::Report { member, number, mask } => (1, member, number, mask),
            Record::Arrival { member, number } => (2, member, number, 0),
            // Kinds below 128 are not private; with one of them put here the record is still not writable.
            Record::Private { kind } => (kind | 128, 0, 0, 0),
        };
        let mut out = [0; RECORD_BYTES];
        Refusal::check(raw::write(kind, member, number, mask, &mut out))?;
        Ok(out)
    }
}
