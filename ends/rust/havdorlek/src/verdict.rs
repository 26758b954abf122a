//! Verdicts on lost messages.

use crate::raw::VERDICT_BYTES;

/// A message is lost: who sends it again, to whom, and for which time.
#[derive(Clone, Copy, Debug, PartialEq, Eq)]
pub struct Verdict {
    /// The message number.
    pub message: u64,
    /// The sending member.
    pub sender: u32,
    /// The receiving member.
    pub receiver: u32,
    /// The resend number.
    pub resend: u32,
}

impl Verdict {
    /// The verdict in 16 bytes: message number (8, little-endian), sender, receiver, resend number, five zeros.
    pub(crate) fn from_bytes(bytes: &[u8; VERDICT_BYTES]) -> Verdict {
        let [a, b, c, d, e, f, g, h, sender, receiver, resend, ..] = *bytes;
        Verdict {
            message: u64::from_le_bytes([a, b, c, d, e, f, g, h]),
            sender: sender.into(),
            receiver: receiver.into(),
            resend: resend.into(),
        }
    }
}
