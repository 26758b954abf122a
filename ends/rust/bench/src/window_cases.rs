//! The calls on a window: empty, full, and full of lost messages.

use crate::calls::Words;
use crate::cases::Case;
use crate::states::{complaining, empty, lost, nearly_collected, quiet, receiving, sending, POINT, QUANTUM};
use crate::work::{on_windows, repeated, Make};
use havdorlek::raw::{REPORT_BYTES, WINDOW_WORDS};
use std::hint::black_box;

/// The calls on a window between clusters of this size.
pub fn window_cases(members: usize) -> Vec<Case> {
    let case = |call, on, make| Case {
        call,
        members: Some(members),
        on,
        make,
    };
    let (collected, last) = nearly_collected(members);
    let next = (0, POINT + 1, 0);
    // Member 0 holds the last message and lacks the others.
    let late = (0, POINT, 1 << 63);
    vec![
        case("open", "", open(members)),
        case("judge", "empty", judge(empty(members))),
        case("judge", "full", judge(quiet(members, 64))),
        case("judge", "full, complaints of 63", judge(complaining(members))),
        case("send", "empty", send(empty(members), 1)),
        case("send", "63 open", send(quiet(members, 63), POINT + 64)),
        case("report", "empty", report(empty(members), (0, 0, 0))),
        case("report", "full, no complaint", report(quiet(members, 64), next)),
        case(
            "report",
            "full, complaints of 63, no verdict",
            report(complaining(members), next),
        ),
        case("report", "full, collects 64", report(collected, (last, POINT + 64, 0))),
        case("report", "full, 64 verdicts, resend 1", report(lost(members, 0), late)),
        case(
            "report",
            "full, 64 verdicts, resend 200",
            report(lost(members, 199), late),
        ),
    ]
}

fn open(members: usize) -> Make {
    Box::new(move |calls| {
        let (s, r) = (sending(members), receiving(members));
        let mut words = [0; WINDOW_WORDS];
        repeated(move || {
            let (ss, rs) = (black_box(&s.shares), black_box(&r.shares));
            let refusal = calls.open(ss, s.u, s.r, rs, r.u, r.r, QUANTUM, &mut words);
            u64::from(refusal) + words[0]
        })
    })
}

fn judge(words: Words) -> Make {
    Box::new(move |calls| repeated(move || u64::from(calls.judge(black_box(&words)))))
}

fn send(words: Words, k: u64) -> Make {
    Box::new(move |calls| on_windows(words, move |words| u64::from(calls.send(words, k))))
}

fn report(words: Words, (member, number, mask): (u32, u64, u64)) -> Make {
    Box::new(move |calls| {
        let mut out = [0; REPORT_BYTES];
        on_windows(words, move |words| {
            let mut answer = [0];
            let refusal = calls.report(words, member, number, mask, &mut out, &mut answer);
            1000 * u64::from(refusal) + answer[0]
        })
    })
}
