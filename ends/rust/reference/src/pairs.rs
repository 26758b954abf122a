//! First pairs and resend pairs.

use crate::circle::Circle;
use crate::clusters::Cluster;
use crate::deal::{deal_slots, receiving_slot, sending_slot};
use crate::limits::{judge_message, judge_quantum, LAST_RESEND};
use crate::refusals::{number, RESEND};

/// "Pairs and opening: 1, 2, 3 of the sending cluster, then of the receiving, 4".
pub(crate) fn judge_pair_of_clusters(sending: &Cluster, receiving: &Cluster, q: u32) -> Result<(), u32> {
    sending.judge()?;
    receiving.judge()?;
    judge_quantum(q)
}

/// The sender of message k's first copy.
pub(crate) fn original_sender(sending: &Cluster, q: u32, k: u64) -> usize {
    deal_slots(sending, q)[sending_slot(q, k)]
}

/// The receiver of message k's first copy.
pub(crate) fn original_receiver(receiving: &Cluster, q: u32, k: u64) -> usize {
    deal_slots(receiving, q)[receiving_slot(q, k)]
}

/// The first copy of message k: its sender and its receiver. Refusals in the order for pairs, then 6.
pub fn first_pair(
    ss: &[u32],
    su: u32,
    sr: u32,
    rs: &[u32],
    ru: u32,
    rr: u32,
    q: u32,
    k: u64,
    answer: &mut [u64; 2],
) -> u32 {
    let sending = Cluster {
        shares: ss,
        u: su,
        r: sr,
    };
    let receiving = Cluster {
        shares: rs,
        u: ru,
        r: rr,
    };
    *answer = [0; 2];
    let judged = judge_pair_of_clusters(&sending, &receiving, q).and_then(|()| judge_message(k));
    if judged.is_ok() {
        *answer = [
            original_sender(&sending, q, k) as u64,
            original_receiver(&receiving, q, k) as u64,
        ];
    }
    number(judged)
}

/// Resend n of message k: its sender, its receiver and its run. Refusals in the order for pairs, then 6, 7.
pub fn resend_pair(
    ss: &[u32],
    su: u32,
    sr: u32,
    rs: &[u32],
    ru: u32,
    rr: u32,
    q: u32,
    k: u64,
    n: u32,
    answer: &mut [u64; 3],
) -> u32 {
    let sending = Cluster {
        shares: ss,
        u: su,
        r: sr,
    };
    let receiving = Cluster {
        shares: rs,
        u: ru,
        r: rr,
    };
    *answer = [0; 3];
    let judged = judge_pair_of_clusters(&sending, &receiving, q)
        .and_then(|()| judge_message(k))
        .and_then(|()| judge_resend(n));
    if judged.is_ok() {
        let resend = Circle::new(&sending, &receiving).resend(original_sender(&sending, q, k), n);
        *answer = [resend.sender as u64, resend.receiver as u64, resend.run];
    }
    number(judged)
}

/// "Resend numbers: 1 to 255."
fn judge_resend(n: u32) -> Result<(), u32> {
    if n == 0 || n > LAST_RESEND {
        return Err(RESEND);
    }
    Ok(())
}
