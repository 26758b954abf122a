//! The document's limits.

/// Members of a cluster at most, and places of the window.
pub const MEMBERS: usize = 64;

/// The highest share.
pub const SHARE: u32 = 1_000_000;

/// The highest quantum.
pub const QUANTUM: u32 = 1_024;

/// The highest message number.
pub const MESSAGE: u64 = 1_000_000_000_000;

/// The highest resend number.
pub const RESEND: u32 = 255;

/// The bytes that a report's output needs.
pub const REPORT_BYTES: usize = 1_024;

/// The bytes of a verdict.
pub const VERDICT_BYTES: usize = 16;

/// Whether k is a message number.
pub fn is_message(k: u64) -> bool {
    (1..=MESSAGE).contains(&k)
}
