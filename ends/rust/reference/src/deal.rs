//! Dealing first copies by Hamilton's method, and the slots in rounds.

use crate::clusters::Cluster;
use crate::limits::judge_quantum;
use crate::refusals::{number, SHORT_OUTPUT};
use std::cmp::Reverse;

/// How many of q messages each member gets.
///
/// "Lower quota of a member: share times q, divided by D, rounded down; its remainder is share times q modulo D. The
/// undealt messages go one each to the largest remainders; equal remainders, lower member first."
pub(crate) fn deal_counts(cluster: &Cluster, q: u32) -> Vec<u32> {
    let total = cluster.total();
    let products: Vec<u64> = cluster
        .shares
        .iter()
        .map(|&share| u64::from(share) * u64::from(q))
        .collect();
    // A share is at most D, so a quota is at most q and fits.
    let mut counts: Vec<u32> = products.iter().map(|product| (product / total) as u32).collect();
    let undealt = q - counts.iter().sum::<u32>();
    let mut by_remainder: Vec<usize> = (0..counts.len()).collect();
    // The sort keeps the order of equals, which is that of the members.
    by_remainder.sort_by_key(|&member| Reverse(products[member] % total));
    for &member in &by_remainder[..undealt as usize] {
        counts[member] += 1;
    }
    counts
}

/// "The deal lists q slots in rounds: each round, members in index order that still have count take one slot."
/// The answer has the owner of each slot.
pub(crate) fn deal_slots(cluster: &Cluster, q: u32) -> Vec<usize> {
    let mut left = deal_counts(cluster, q);
    let mut still: Vec<usize> = (0..left.len()).collect();
    let mut slots = Vec::new();
    loop {
        still.retain(|&member| left[member] > 0);
        if still.is_empty() {
            return slots;
        }
        for &member in &still {
            left[member] -= 1;
            slots.push(member);
        }
    }
}

/// "Message k: slot s = (k − 1) mod q, quantum number Q = (k − 1) div q. Sender: owner of slot s in the sending deal."
pub(crate) fn sending_slot(q: u32, k: u64) -> usize {
    ((k - 1) % u64::from(q)) as usize
}

/// "Receiver: owner of slot (s + Q) mod q in the receiving deal."
pub(crate) fn receiving_slot(q: u32, k: u64) -> usize {
    let quantum_number = (k - 1) / u64::from(q);
    ((sending_slot(q, k) as u64 + quantum_number) % u64::from(q)) as usize
}

/// The counts of a deal, one place for each member. Refusals in the order 1, 2, 3, 4, 5.
pub fn counts(shares: &[u32], u: u32, r: u32, q: u32, out: &mut [u32]) -> u32 {
    number(accepted_counts(&Cluster { shares, u, r }, q, out))
}

fn accepted_counts(cluster: &Cluster, q: u32, out: &mut [u32]) -> Result<(), u32> {
    cluster.judge()?;
    judge_quantum(q)?;
    let places = out.get_mut(..cluster.shares.len()).ok_or(SHORT_OUTPUT)?;
    places.copy_from_slice(&deal_counts(cluster, q));
    Ok(())
}
