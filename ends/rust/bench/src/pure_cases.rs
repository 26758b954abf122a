//! The calls without a window: between two clusters, at a receiving member, and on link records.

use crate::cases::Case;
use crate::states::{receiving, sending, Cluster, QUANTUM};
use crate::work::{on_holdings, repeated, Make};
use havdorlek::raw::{PLAN_BYTES, RECORD_BYTES};
use std::hint::black_box;

/// A message late in a long season.
const MESSAGE: u64 = 123_456_789;

/// The calls on two clusters.
pub fn cluster_cases(members: usize) -> Vec<Case> {
    let case = |call, on, make| Case {
        call,
        members: Some(members),
        on,
        make,
    };
    vec![
        case("counts", "", counts(members)),
        case("first_pair", "", first_pair(members)),
        case("resend_pair", "resend 1", resend_pair(members, 1)),
        case("resend_pair", "resend 200", resend_pair(members, 200)),
        case("plan", "", plan(members)),
    ]
}

fn counts(members: usize) -> Make {
    Box::new(move |calls| {
        let Cluster { shares, u, r } = sending(members);
        let mut out = [0; 64];
        repeated(move || {
            let refusal = calls.counts(black_box(&shares), u, r, QUANTUM, &mut out);
            u64::from(refusal + out[members - 1])
        })
    })
}

fn first_pair(members: usize) -> Make {
    Box::new(move |calls| {
        let (s, r) = (sending(members), receiving(members));
        repeated(move || {
            let mut answer = [0; 2];
            let (ss, rs) = (black_box(&s.shares), black_box(&r.shares));
            let refusal = calls.first_pair(ss, s.u, s.r, rs, r.u, r.r, QUANTUM, MESSAGE, &mut answer);
            u64::from(refusal) + 64 * answer[0] + answer[1]
        })
    })
}

fn resend_pair(members: usize, n: u32) -> Make {
    Box::new(move |calls| {
        let (s, r) = (sending(members), receiving(members));
        repeated(move || {
            let mut answer = [0; 3];
            let (ss, rs) = (black_box(&s.shares), black_box(&r.shares));
            let refusal = calls.resend_pair(ss, s.u, s.r, rs, r.u, r.r, QUANTUM, MESSAGE, n, &mut answer);
            u64::from(refusal) + 64 * answer[0] + answer[1] + 4096 * answer[2]
        })
    })
}

fn plan(members: usize) -> Make {
    Box::new(move |calls| {
        let input = plan_input(&sending(members), &receiving(members));
        let mut out = [0; PLAN_BYTES];
        repeated(move || calls.plan(black_box(&input), &mut out) as u64)
    })
}

fn plan_input(s: &Cluster, r: &Cluster) -> Vec<u8> {
    let mut records = vec![[1, s.u, s.r]];
    records.extend(s.shares.iter().map(|&share| [2, share, 0]));
    records.push([3, r.u, r.r]);
    records.extend(r.shares.iter().map(|&share| [4, share, 0]));
    records.push([5, QUANTUM, MESSAGE as u32]);
    records.concat().into_iter().flat_map(u32::to_le_bytes).collect()
}

/// The calls of a receiving member, and on link records.
pub fn member_cases() -> Vec<Case> {
    let case = |call, on, make| Case {
        call,
        members: None,
        on,
        make,
    };
    vec![
        case("fresh", "", fresh()),
        case("arrive", "the next message", arrive([1_000, 0], 1_001)),
        case("arrive", "a later message", arrive([1_000, 2], 1_040)),
        case("arrive", "the one that 63 wait for", arrive([1_000, !1], 1_001)),
        case("receiver_report", "", receiver_report()),
        case("read", "a report", read()),
        case("write", "a report", write()),
    ]
}

fn fresh() -> Make {
    Box::new(|calls| {
        on_holdings([1_000, 2], |holdings| {
            calls.fresh(holdings);
            holdings[0]
        })
    })
}

fn arrive(before: [u64; 2], k: u64) -> Make {
    Box::new(move |calls| {
        on_holdings(before, move |holdings| {
            let refusal = calls.arrive(holdings, black_box(k));
            u64::from(refusal) + holdings[0]
        })
    })
}

fn receiver_report() -> Make {
    Box::new(|calls| {
        repeated(|| {
            let mut answer = [0; 2];
            let refusal = calls.receiver_report(black_box(&[1_000, 2]), &mut answer);
            u64::from(refusal) + answer[0]
        })
    })
}

fn read() -> Make {
    Box::new(|calls| {
        let mut bytes = [0; RECORD_BYTES];
        [bytes[0], bytes[1], bytes[8], bytes[16]] = [1, 5, 7, 2];
        repeated(move || {
            let mut answer = [0; 4];
            let refusal = calls.read(black_box(&bytes), &mut answer);
            u64::from(refusal) + answer[2]
        })
    })
}

fn write() -> Make {
    Box::new(|calls| {
        let mut out = [0; RECORD_BYTES];
        repeated(move || {
            let refusal = calls.write(1, 5, black_box(7), 2, &mut out);
            u64::from(refusal) + u64::from(out[8])
        })
    })
}
