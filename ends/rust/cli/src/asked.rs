//! What is asked: two clusters, a quantum, a message, and who has failed.

use crate::mistake::Mistake;
use havdorlek::{counts, Cluster, Refusal};

/// One of the two clusters.
pub struct Side {
    /// `sending` or `receiving`.
    pub name: &'static str,
    pub shares: Vec<u32>,
    pub u: u32,
    pub r: u32,
    /// The failed members, in order.
    pub failed: Vec<u32>,
}

/// All that a plan is made of.
pub struct Asked {
    pub sending: Side,
    pub receiving: Side,
    pub quantum: u32,
    pub message: u64,
}

impl Side {
    /// The cluster as the library takes it.
    pub fn cluster(&self) -> Cluster<'_> {
        Cluster {
            shares: &self.shares,
            u: self.u,
            r: self.r,
        }
    }

    /// Whether a member is named as failed.
    pub fn has_failed(&self, member: u32) -> bool {
        self.failed.contains(&member)
    }

    /// The total share of an accepted cluster.
    pub fn total(&self) -> u64 {
        self.shares.iter().map(|&share| u64::from(share)).sum()
    }

    /// The failed members' share.
    pub fn failed_share(&self) -> u64 {
        self.failed
            .iter()
            .map(|&member| u64::from(self.shares[member as usize]))
            .sum()
    }

    /// The cluster in a few words.
    pub fn described(&self) -> String {
        let members = self.shares.len();
        let many = if members == 1 { "" } else { "s" };
        format!("{members} member{many}, D {}, u {}, r {}", self.total(), self.u, self.r)
    }

    /// Whether every member named as failed exists.
    pub fn check_failed(&self) -> Result<(), Mistake> {
        let members = self.shares.len();
        match self.failed.iter().find(|&&member| member as usize >= members) {
            Some(member) => Err(Mistake::Usage(format!(
                "--failed-{}: there is no member {member}; expected members from 0 to {}",
                if self.name == "sending" { "senders" } else { "receivers" },
                members - 1
            ))),
            None => Ok(()),
        }
    }
}

impl Asked {
    /// A refusal, with the cluster that it is for: the first that is refused on its own.
    pub fn refused(&self, refusal: Refusal) -> Mistake {
        let refuses = |side: &&&Side| counts(side.cluster(), 1) == Err(refusal);
        let cluster = [&self.sending, &self.receiving]
            .iter()
            .find(refuses)
            .map(|side| side.name);
        Mistake::Refused(refusal, cluster)
    }
}
