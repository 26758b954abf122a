//! Clusters, and the dealing of first copies to one.

use crate::{raw, Refusal};

/// A cluster: its members' shares, member 0 first, and the shares that may fail or lie. Any values; the calls judge them.
#[derive(Clone, Copy, Debug, PartialEq, Eq)]
pub struct Cluster<'a> {
    /// The share of each member.
    pub shares: &'a [u32],
    /// u: the share that may fail in any way.
    pub u: u32,
    /// r: the share that may lie.
    pub r: u32,
}

/// How many of q messages each member gets, by Hamilton's method. Refusals: 1, 2, 3, 4.
pub fn counts(cluster: Cluster, q: u32) -> Result<Vec<u32>, Refusal> {
    // Room for every cluster that is accepted; one that is longer is refused before its output is looked at.
    let mut out = [0; 64];
    Refusal::check(raw::counts(cluster.shares, cluster.u, cluster.r, q, &mut out))?;
    Ok(out[..cluster.shares.len()].to_vec())
}
