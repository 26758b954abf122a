//! The link unit's calls, written by hand for speed and without proofs: what the proved library is measured against.
//!
//! Every call has the shape of the call of the same name in `havdorlek::raw` and the same answers for any input. What
//! makes it quick: the state is judged and changed in place; sets of members and of messages are words of 64 bits; who
//! holds what is turned from rows to columns at once; the point is checked and not searched for; the circle is walked
//! once, however many verdicts are due.
#![deny(missing_docs)]
#![forbid(unsafe_code)]

mod circle;
mod cluster;
mod columns;
mod dealer;
mod due;
mod formed;
mod hamilton;
mod holdings;
mod layout;
mod limits;
mod marks;
mod opening;
mod pairs;
mod plan;
mod records;
mod report;
mod text;
mod verdicts;

pub use formed::judge;
pub use hamilton::counts;
pub use holdings::{arrive, fresh, receiver_report};
pub use opening::{open, send};
pub use pairs::{first_pair, resend_pair};
pub use plan::plan;
pub use records::{read, write};
pub use report::report;
