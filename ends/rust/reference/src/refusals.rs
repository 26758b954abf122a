//! The refusals, by the numbers of the document's table.

/// An accepted call.
pub(crate) const ACCEPTED: u32 = 0;
/// "0 or more than 64 members"
pub(crate) const MEMBERS: u32 = 1;
/// "a share is 0 or above 1,000,000"
pub(crate) const SHARE: u32 = 2;
/// "r above u, or D below 2u + r + 1"
pub(crate) const BOUNDS: u32 = 3;
/// "q is 0 or above 1,024"
pub(crate) const QUANTUM: u32 = 4;
/// "output shorter than needed (counts: one 32-bit place per member; report: 1,024 bytes; record: 24)"
pub(crate) const SHORT_OUTPUT: u32 = 5;
/// "message number 0 or above its limit"
pub(crate) const MESSAGE: u32 = 6;
/// "resend number 0 or above 255"
pub(crate) const RESEND: u32 = 7;
/// "no such receiving member"
pub(crate) const NO_MEMBER: u32 = 8;
/// "k above p + 64"
pub(crate) const WINDOW_FULL: u32 = 9;
/// "k is not S + 1"
pub(crate) const NOT_NEXT: u32 = 10;
/// "report holds something above S"
pub(crate) const NOT_SENT: u32 = 11;
/// "mask bit 0 set"
pub(crate) const BIT_0: u32 = 12;
/// "report lacks a message that the member's former report held"
pub(crate) const LACKS_FORMER: u32 = 13;
/// "kind reserved, or not writable"
pub(crate) const KIND: u32 = 14;
/// "a byte or field that must be zero is not"
pub(crate) const NOT_ZERO: u32 = 15;
/// "record not 24 bytes long"
pub(crate) const LENGTH: u32 = 16;
/// "state or holdings not well formed"
pub(crate) const NOT_FORMED: u32 = 17;
/// "arrival above c + 64"
pub(crate) const TOO_FAR: u32 = 18;
/// "plan program: input badly built"
pub(crate) const BADLY_BUILT: u32 = 19;

/// What a call returns for its result: the refusal's number, or 0.
pub(crate) fn number(result: Result<(), u32>) -> u32 {
    result.err().unwrap_or(ACCEPTED)
}
