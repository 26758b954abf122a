//! The link unit's calls, proved, behind types that a Rust program would have them in.
//!
//! A link unit carries committed gate orders from one operator's cluster to the other's. This crate deals out first copies
//! ([`counts`], [`first_pair`]), names who sends again ([`resend_pair`]), keeps the sending window ([`Window`]: it takes
//! reports, gives verdicts on lost messages and says which orders may be dropped) and the receiving member's holdings
//! ([`Holdings`]), and reads and writes link records ([`Record`]). [`plan()`] is the plan program's text.
//!
//! Every answer comes from the proved archive. A call takes any values at all; what it refuses, it refuses with a
//! [`Refusal`], and then it has changed nothing.
//!
//! ```
//! use havdorlek::{Cluster, Window};
//!
//! let four = Cluster { shares: &[1; 4], u: 1, r: 1 };
//! let mut window = Window::open(four, four, 4)?;
//! window.send(1)?;
//! let verdicts = window.report(0, 1, 0)?;
//! assert!(verdicts.is_empty() && !window.may_drop(1));
//! // With a second member that holds it, order 1 is safe even if one of them fails.
//! window.report(3, 1, 0)?;
//! assert!(window.may_drop(1));
//! # Ok::<(), havdorlek::Refusal>(())
//! ```
//!
//! [`raw`] has the same calls as the archive gives them, with numbers for refusals and the state in lent words; [`sys`] has them
//! as C sees them.
#![deny(missing_docs)]
#![deny(unsafe_op_in_unsafe_fn)]

mod cluster;
mod holdings;
mod pairs;
mod plan;
pub mod raw;
mod record;
mod refusal;
pub mod sys;
mod verdict;
mod window;

pub use cluster::{counts, Cluster};
pub use holdings::{Holdings, Report};
pub use pairs::{first_pair, resend_pair, Pair, Resend};
pub use plan::plan;
pub use record::Record;
pub use refusal::Refusal;
pub use verdict::Verdict;
pub use window::Window;
