//! Why a call is refused.

use std::fmt;

/// A refusal, with the document's number and words.
#[derive(Clone, Copy, Debug, PartialEq, Eq, Hash)]
#[repr(u32)]
pub enum Refusal {
    /// 0 or more than 64 members.
    Members = 1,
    /// A share is 0 or above 1,000,000.
    Share = 2,
    /// r above u, or D below 2u + r + 1.
    Bounds = 3,
    /// q is 0 or above 1,024.
    Quantum = 4,
    /// Output shorter than needed. The typed calls lend outputs that are long enough; [`crate::raw`] lends any.
    ShortOutput = 5,
    /// Message number 0 or above its limit.
    Message = 6,
    /// Resend number 0 or above 255.
    Resend = 7,
    /// No such receiving member.
    NoMember = 8,
    /// k above p + 64.
    WindowFull = 9,
    /// k is not S + 1.
    NotNext = 10,
    /// Report holds something above S.
    NotSent = 11,
    /// Mask bit 0 set.
    Bit0 = 12,
    /// Report lacks a message that the member's former report held.
    LacksFormer = 13,
    /// Kind reserved, or not writable.
    Kind = 14,
    /// A byte or field that must be zero is not.
    NotZero = 15,
    /// Record not 24 bytes long.
    Length = 16,
    /// State or holdings not well formed.
    NotFormed = 17,
    /// Arrival above c + 64.
    TooFar = 18,
    /// Plan program: input badly built.
    BadlyBuilt = 19,
}

impl Refusal {
    /// Every refusal, by number. No other exists.
    pub const ALL: [Refusal; 19] = [
        Refusal::Members,
        Refusal::Share,
        Refusal::Bounds,
        Refusal::Quantum,
        Refusal::ShortOutput,
        Refusal::Message,
        Refusal::Resend,
        Refusal::NoMember,
        Refusal::WindowFull,
        Refusal::NotNext,
        Refusal::NotSent,
        Refusal::Bit0,
        Refusal::LacksFormer,
        Refusal::Kind,
        Refusal::NotZero,
        Refusal::Length,
        Refusal::NotFormed,
        Refusal::TooFar,
        Refusal::BadlyBuilt,
    ];

    /// The document's number.
    pub fn number(self) -> u32 {
        self as u32
    }

    /// The refusal with this number; 0 and numbers above 19 are none.
    pub fn from_number(number: u32) -> Option<Refusal> {
        let before = number.checked_sub(1)?;
        Refusal::ALL.get(before as usize).copied()
    }

    /// The document's words.
    pub fn words(self) -> &'static str {
        match self {
            Refusal::Members => "0 or more than 64 members",
            Refusal::Share => "a share is 0 or above 1,000,000",
            Refusal::Bounds => "r above u, or D below 2u + r + 1",
            Refusal::Quantum => "q is 0 or above 1,024",
            Refusal::ShortOutput => "output shorter than needed",
            Refusal::Message => "message number 0 or above its limit",
            Refusal::Resend => "resend number 0 or above 255",
            Refusal::NoMember => "no such receiving member",
            Refusal::WindowFull => "k above p + 64",
            Refusal::NotNext => "k is not S + 1",
            Refusal::NotSent => "report holds something above S",
            Refusal::Bit0 => "mask bit 0 set",
            Refusal::LacksFormer => "report lacks a message that the member's former report held",
            Refusal::Kind => "kind reserved, or not writable",
            Refusal::NotZero => "a byte or field that must be zero is not",
            Refusal::Length => "record not 24 bytes long",
            Refusal::NotFormed => "state or holdings not well formed",
            Refusal::TooFar => "arrival above c + 64",
            Refusal::BadlyBuilt => "plan program: input badly built",
        }
    }

    /// What a call's number says: 0 that it was accepted.
    pub(crate) fn check(number: u32) -> Result<(), Refusal> {
        if number == 0 {
            return Ok(());
        }
        Err(Refusal::from_number(number).expect("no other refusal exists"))
    }
}

/// `refused N: ` and the document's words.
impl fmt::Display for Refusal {
    fn fmt(&self, f: &mut fmt::Formatter) -> fmt::Result {
        write!(f, "refused {}: {}", self.number(), self.words())
    }
}

impl std::error::Error for Refusal {}
