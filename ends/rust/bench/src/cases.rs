//! The cases: which call, between how many members, on what.

use crate::pure_cases::{cluster_cases, member_cases};
use crate::window_cases::window_cases;
use crate::work::Make;

/// One line of the table.
pub struct Case {
    /// The call.
    pub call: &'static str,
    /// The members of each cluster, where the call has clusters.
    pub members: Option<usize>,
    /// What the call works on.
    pub on: &'static str,
    /// Makes one side's batch.
    pub make: Make,
}

/// Every case, call by call.
pub fn cases() -> Vec<Case> {
    let sizes = [4, 16, 64];
    let mut cases: Vec<Case> = sizes.into_iter().flat_map(cluster_cases).collect();
    cases.extend(sizes.into_iter().flat_map(window_cases));
    // Calls in the order in which they first come, the sizes of each together.
    let calls: Vec<&str> = cases.iter().map(|case| case.call).collect();
    cases.sort_by_key(|case| calls.iter().position(|&call| call == case.call));
    cases.extend(member_cases());
    cases
}
