//! Who sends a message, and to whom: the first copy and the resends.

use crate::{raw, Cluster, Refusal};

/// The two ends of a first copy.
#[derive(Clone, Copy, Debug, PartialEq, Eq)]
pub struct Pair {
    /// The sending member.
    pub sender: u32,
    /// The receiving member.
    pub receiver: u32,
}

/// The two ends of a resend, and its run in units of the circle.
#[derive(Clone, Copy, Debug, PartialEq, Eq)]
pub struct Resend {
    /// The sending member.
    pub sender: u32,
    /// The receiving member.
    pub receiver: u32,
    /// The units up to the next stretch end in either layout.
    pub run: u64,
}

/// The first copy of message k. Refusals: 1, 2, 3 of the sending cluster, then of the receiving, 4, 6.
pub fn first_pair(sending: Cluster, receiving: Cluster, q: u32, k: u64) -> Result<Pair, Refusal> {
    let (s, r) = (sending, receiving);
    let mut answer = [0; 2];
    Refusal::check(raw::first_pair(
        s.shares,
        s.u,
        s.r,
        r.shares,
        r.u,
        r.r,
        q,
        k,
        &mut answer,
    ))?;
    let [sender, receiver] = answer.map(member);
    Ok(Pair { sender, receiver })
}

/// Resend n of message k. Refusals: 1, 2, 3 of the sending cluster, then of the receiving, 4, 6, 7.
pub fn resend_pair(sending: Cluster, receiving: Cluster, q: u32, k: u64, n: u32) -> Result<Resend, Refusal> {
    let (s, r) = (sending, receiving);
    let mut answer = [0; 3];
    Refusal::check(raw::resend_pair(
        s.shares,
        s.u,
        s.r,
        r.shares,
        r.u,
        r.r,
        q,
        k,
        n,
        &mut answer,
    ))?;
    let [sender, receiver, run] = answer;
    Ok(Resend {
        sender: member(sender),
        receiver: member(receiver),
        run,
    })
}

/// A member's number, which the archive hands over in 64 bits.
fn member(answer: u64) -> u32 {
    u32::try_from(answer).expect("a member is below 64")
}
