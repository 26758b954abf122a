//! The circle of L units on which both clusters' scaled shares lie, and the resends that walk it.

use crate::clusters::Cluster;

/// A resend's ends and its run of units.
pub(crate) struct Resend {
    pub sender: usize,
    pub receiver: usize,
    pub run: u64,
}

/// "L is the least common multiple of both totals. [...] A cluster's scale factor is L / D. Lay each cluster's scaled
/// shares, member 0 first, on a circle of L units."
///
/// A total is at most 64,000,000, so L is below 2^52. A layout is kept as the unit at which each member's stretch ends,
/// which is the first unit of the next member's.
pub(crate) struct Circle {
    length: u64,
    sending_ends: Vec<u64>,
    receiving_ends: Vec<u64>,
}

impl Circle {
    pub fn new(sending: &Cluster, receiving: &Cluster) -> Circle {
        let length = sending.total() / divisor(sending.total(), receiving.total()) * receiving.total();
        Circle {
            length,
            sending_ends: stretch_ends(sending, length),
            receiving_ends: stretch_ends(receiving, length),
        }
    }

    /// Resend n of a message with this original sender.
    pub fn resend(&self, original_sender: usize, n: u32) -> Resend {
        let mut resends = self.resends(original_sender);
        resends
            .nth(n as usize - 1)
            .expect("the circle goes round as often as needed")
    }

    /// Resends 1, 2, 3 and so on of a message with this original sender, without end.
    ///
    /// "Resend 1 of message k starts where the original sender's stretch ends (mod L). A resend's ends are the owners
    /// of its first unit in the two layouts; its run is the units up to the next stretch end in either layout; the next
    /// resend starts there. The circle goes round as often as needed."
    pub fn resends(&self, original_sender: usize) -> impl Iterator<Item = Resend> + '_ {
        let mut start = self.sending_ends[original_sender] % self.length;
        std::iter::repeat_with(move || {
            let sender = owner(&self.sending_ends, start);
            let receiver = owner(&self.receiving_ends, start);
            let end = self.sending_ends[sender].min(self.receiving_ends[receiver]);
            let run = end - start;
            start = end % self.length;
            Resend { sender, receiver, run }
        })
    }
}

/// "The divisor is found by Euclid's rule, each step on a smaller remainder."
fn divisor(a: u64, b: u64) -> u64 {
    if b == 0 {
        a
    } else {
        divisor(b, a % b)
    }
}

fn stretch_ends(cluster: &Cluster, length: u64) -> Vec<u64> {
    let scale_factor = length / cluster.total();
    let mut end = 0;
    let mut ends = Vec::new();
    for &share in cluster.shares {
        end += u64::from(share) * scale_factor;
        ends.push(end);
    }
    ends
}

/// The member whose stretch has the unit: the first whose stretch ends beyond it. The last stretch ends at L.
fn owner(ends: &[u64], unit: u64) -> usize {
    ends.iter().take_while(|&&end| end <= unit).count()
}
