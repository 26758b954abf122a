//! When a state is well formed, clause by clause.

use crate::limits::{judge_quantum, LAST_MESSAGE, LAST_RESEND, PLACES};
use crate::window::{place, KeptCluster, Window};

/// "A state is well formed when:" all of these hold. The later ones are asked only where the earlier ones hold; they
/// rely on clusters of at most 64 members and on a window of at most 64 messages.
pub(crate) fn well_formed(window: &Window) -> bool {
    clusters_and_quantum_are_accepted(window)
        && numbers_are_in_range(window)
        && reports_hold_nothing_above_sent(window)
        && silent_places_are_zero(window)
        && window.point == window.point_of_reports()
        && complaints_name_members_that_lack_the_message(window)
        && window.entries.iter().all(|entry| entry.count <= LAST_RESEND)
        && entries_outside_the_window_are_empty(window)
}

/// "Both clusters and q are accepted, share places past a cluster's end being zero".
fn clusters_and_quantum_are_accepted(window: &Window) -> bool {
    kept_cluster_is_accepted(&window.sending)
        && kept_cluster_is_accepted(&window.receiving)
        && judge_quantum(window.q).is_ok()
}

fn kept_cluster_is_accepted(cluster: &KeptCluster) -> bool {
    // Only 64 places can be lent, so more members than that are told apart before.
    cluster.members as usize <= PLACES
        && cluster.lent().judge().is_ok()
        && cluster.shares[cluster.members as usize..]
            .iter()
            .all(|&share| share == 0)
}

/// "p ≤ S ≤ p + 64 and S ≤ 1,000,000,000,000". The limit is asked before p + 64 is worked out, which then cannot
/// overflow.
fn numbers_are_in_range(window: &Window) -> bool {
    window.point <= window.sent && window.sent <= LAST_MESSAGE && window.sent <= window.point + PLACES as u64
}

/// "Each member's report has bit 0 clear and holds nothing above S".
fn reports_hold_nothing_above_sent(window: &Window) -> bool {
    let members = &window.reports[..window.receiving.members as usize];
    members
        .iter()
        .all(|report| !report.marks.bit(0) && report.marks.highest_held() <= u128::from(window.sent))
}

/// "A member that has not reported, and every place past the cluster's end (never marked as reported), has an all-zero
/// report".
fn silent_places_are_zero(window: &Window) -> bool {
    let members = window.receiving.members as usize;
    window.reports.iter().enumerate().all(|(member, report)| {
        let all_zero = report.marks.number == 0 && report.marks.mask == 0;
        if member < members {
            report.has_reported || all_zero
        } else {
            !report.has_reported && all_zero
        }
    })
}

/// "Complaint sets name only members that exist and do not hold the message". Outside the window a set has no message;
/// there the clause on empty entries decides.
fn complaints_name_members_that_lack_the_message(window: &Window) -> bool {
    window.open_messages().all(|k| {
        let complaints = window.entries[place(k)].complaints.iter().enumerate();
        let mut named = complaints
            .filter(|&(_, &complains)| complains)
            .map(|(member, _)| member);
        named.all(|member| member < window.receiving.members as usize && !window.reports[member].marks.holds(k))
    })
}

/// "Entries outside p + 1 to S are empty."
fn entries_outside_the_window_are_empty(window: &Window) -> bool {
    let mut inside = [false; PLACES];
    for k in window.open_messages() {
        inside[place(k)] = true;
    }
    let outside = window.entries.iter().zip(inside).filter(|&(_, inside)| !inside);
    outside
        .map(|(entry, _)| entry)
        .all(|entry| entry.count == 0 && !entry.complaints.contains(&true))
}
