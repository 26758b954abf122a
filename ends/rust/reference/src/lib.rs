//! The link unit's calls, written from document 01 ("What we will build and its rules") alone: an independent twin of
//! the proved library, plain and slow, to hold the library's answers against.
//!
//! The calls have the shapes of the C header havdorlek.h, with slices and arrays, and a window's state has its layout.
//! They return the refusal's number, 0 for none; answers are zeros on a refusal, and states and buffers then stay as
//! they were.
//!
//! # Where the document leaves a choice
//!
//! Clusters and pairs
//! - The bounds' sum 2u + r + 1 is meant as a number without limit: u and r of any 32 bits are judged by it.
//! - "1, 2, 3 of the sending cluster, then of the receiving" judges the sending cluster through before the receiving
//!   one is looked at.
//! - "The original sender" of a resend is the sender of the message's first copy, whatever came between.
//!
//! The window
//! - A member that has not reported counts with cumulative number 0; this gives p at least 0 and nothing more.
//! - "With the same c" compares with the latest former report only, and does not ask for the same mask. (Nothing
//!   depends on the mask: one that has grown leaves a gap at c + 1, and none may shrink.)
//! - "Some later message", in a gap, is later than k.
//! - A report that complains again of what it complained of before leaves the set as it is; after a verdict has emptied
//!   the set, it counts anew.
//! - A complaint once made stays until the member holds the message, a verdict empties the set or the message is
//!   collected, even where a later report of that member no longer complains.
//! - A complaint set may name a member that has not reported, because "exist and do not hold" is all that is asked.
//! - "Complaint sets name only members that [...] do not hold the message" and "counts are at most 255" speak of the
//!   messages p + 1 to S; all other entries must be empty anyway.
//! - The 1,024 bytes of a report's output are asked for however few verdicts there will be.
//! - The number of members in a state is a field like others: 0 or more than 64 makes the state not well formed.
//! - A word too large for its field makes the state not well formed (the C header's words).
//!
//! Records and holdings
//! - Holdings with c above 1,000,000,000,000 hold something above it.
//! - Of a private record only the kind is told, and member, number and mask are zero, even where its bytes are not (the
//!   C header's words).
//! - A report record's bit 0 is not judged by reader or writer: it is no byte or field that must be zero.
//!
//! The plan program
//! - An input that is no whole number of 12-byte records is some other build: 19.
//! - More than 64 records of kind 2 or 4 are well built: 1.
//! - The second number of kinds 2 and 4 is "where zero is named": 19 where it is not.
//! - All of the input is judged for 19 before a cluster is judged.
//! - `refused N` is a line too and ends with a newline.
//! - "The number in demand 3" is sending members + receiving members − 1.

#![forbid(unsafe_code)]
// The calls' shapes are the C header's, and "u + 1 or more" stays as the document says it.
#![allow(clippy::too_many_arguments, clippy::int_plus_one)]

mod circle;
mod clusters;
mod deal;
mod holdings;
mod limits;
mod marks;
mod pairs;
mod plan;
mod records;
mod refusals;
mod reports;
mod well_formed;
mod window;
mod words;

pub use deal::counts;
pub use holdings::{arrive, fresh, receiver_report};
pub use pairs::{first_pair, resend_pair};
pub use plan::plan;
pub use records::{read, write};
pub use reports::report;
pub use window::{judge, open, send};
