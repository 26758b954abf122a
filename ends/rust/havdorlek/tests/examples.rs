//! The document's examples, starred or not.

use havdorlek::{
    counts, first_pair, plan, resend_pair, Cluster, Holdings, Pair, Refusal, Report, Resend, Verdict, Window,
};

/// Four members of share 1 with u = r = 1.
const E: Cluster = Cluster {
    shares: &[1; 4],
    u: 1,
    r: 1,
};

const THREE: Cluster = Cluster {
    shares: &[1; 3],
    u: 1,
    r: 0,
};

const FIVE: Cluster = Cluster {
    shares: &[1; 5],
    u: 2,
    r: 0,
};

/// The resends of message 3 between three members and five, quantum 3.
const SEVEN: [(u32, u32, u64); 7] = [
    (0, 0, 3),
    (0, 1, 2),
    (1, 1, 1),
    (1, 2, 3),
    (1, 3, 1),
    (2, 3, 2),
    (2, 4, 3),
];

fn trusting(shares: &[u32]) -> Cluster<'_> {
    Cluster { shares, u: 0, r: 0 }
}

fn resends(sending: Cluster, receiving: Cluster, q: u32, k: u64, last: u32) -> Vec<(u32, u32, u64)> {
    let ends = |n| {
        let Resend { sender, receiver, run } = resend_pair(sending, receiving, q, k, n).unwrap();
        (sender, receiver, run)
    };
    (1..=last).map(ends).collect()
}

fn opened_with(sent: u64) -> Window {
    let mut window = Window::open(E, E, 4).unwrap();
    (1..=sent).for_each(|k| window.send(k).unwrap());
    window
}

#[test]
fn counts_of_figure_5() {
    assert_eq!(counts(trusting(&[25; 4]), 100).unwrap(), [25; 4]);
    assert_eq!(counts(trusting(&[250; 4]), 100).unwrap(), [25; 4]);
    assert_eq!(counts(trusting(&[214, 262, 262, 262]), 100).unwrap(), [22, 26, 26, 26]);
    assert_eq!(counts(trusting(&[97, 1, 1, 1]), 10).unwrap(), [10, 0, 0, 0]);
}

#[test]
fn equal_remainders_lower_member_first() {
    assert_eq!(counts(trusting(&[1; 3]), 4).unwrap(), [2, 1, 1]);
}

#[test]
fn counts_2_1_3_deal_0_1_2_0_2_2() {
    let shares = trusting(&[2, 1, 3]);
    assert_eq!(counts(shares, 6).unwrap(), [2, 1, 3]);
    let senders: Vec<u32> = (1..=6).map(|k| first_pair(shares, E, 6, k).unwrap().sender).collect();
    assert_eq!(senders, [0, 1, 2, 0, 2, 2]);
}

#[test]
fn message_6_of_e() {
    let pair = first_pair(E, E, 4, 6).unwrap();
    assert_eq!(pair, Pair { sender: 1, receiver: 2 });
    assert_eq!(resends(E, E, 4, 6, 4), [(2, 2, 1), (3, 3, 1), (0, 0, 1), (1, 1, 1)]);
}

#[test]
fn seven_resends() {
    assert_eq!(first_pair(THREE, FIVE, 3, 3).unwrap(), Pair { sender: 2, receiver: 2 });
    assert_eq!(resends(THREE, FIVE, 3, 3, 7), SEVEN);
}

#[test]
fn first_good_resend() {
    let failed = |sender: u32, receiver: u32| sender == 1 || receiver <= 1;
    let all = resends(THREE, FIVE, 3, 3, 7);
    let good = all
        .iter()
        .position(|&(sender, receiver, _)| !failed(sender, receiver))
        .unwrap();
    let spent: u64 = all[..good].iter().map(|resend| resend.2).sum();
    assert_eq!((good + 1, spent), (6, 10));
    assert!(spent <= 5 + 6);
}

#[test]
fn e_to_millions() {
    let millions = Cluster {
        shares: &[1_000_000; 4],
        u: 1_333_333,
        r: 1_333_333,
    };
    // Message 4 is first sent by member 3, whose stretch ends at unit 0.
    let from_0 = resends(E, millions, 4, 4, 3);
    assert_eq!(from_0, [(0, 0, 1_000_000), (1, 1, 1_000_000), (2, 2, 1_000_000)]);
}

#[test]
fn reports_move_the_point_and_give_a_verdict() {
    let mut window = opened_with(4);
    assert_eq!(window.report(0, 1, 0), Ok(vec![]));
    assert_eq!(window.point(), 0);
    assert_eq!(window.report(3, 4, 0), Ok(vec![]));
    assert_eq!(window.point(), 1);
    assert_eq!(window.report(1, 1, 0), Ok(vec![]));
    assert_eq!(window.report(1, 1, 0), Ok(vec![]));
    let verdict = Verdict {
        message: 2,
        sender: 2,
        receiver: 2,
        resend: 1,
    };
    assert_eq!(window.report(0, 1, 0), Ok(vec![verdict]));
    assert_eq!(window.resend_count(2), Some(1));
}

#[test]
fn messages_2_to_64_then_1() {
    let mut holdings = Holdings::fresh();
    (2..=64).for_each(|k| holdings.arrive(k).unwrap());
    assert_eq!(holdings.report(), Report { number: 0, mask: !1 });
    holdings.arrive(1).unwrap();
    assert_eq!(holdings.report(), Report { number: 64, mask: 0 });
}

#[test]
fn limits() {
    assert!(counts(trusting(&[1_000_000]), 1).is_ok());
    assert_eq!(counts(trusting(&[1_000_001]), 1), Err(Refusal::Share));
    assert_eq!(counts(Cluster { u: 2, ..E }, 4), Err(Refusal::Bounds));
    let mut window = opened_with(64);
    assert_eq!(window.send(65), Err(Refusal::WindowFull));
    let mut holdings = Holdings::fresh();
    assert_eq!(holdings.arrive(65), Err(Refusal::TooFar));
    assert_eq!(holdings.arrive(64), Ok(()));
}

fn plan_record(kind: u32, first: u32, second: u32) -> Vec<u8> {
    [kind, first, second].map(u32::to_le_bytes).concat()
}

#[test]
fn plan_of_seven_resends() {
    let mut input = plan_record(1, 1, 0);
    (0..3).for_each(|_| input.extend(plan_record(2, 1, 0)));
    input.extend(plan_record(3, 2, 0));
    (0..5).for_each(|_| input.extend(plan_record(4, 1, 0)));
    input.extend(plan_record(5, 3, 3));
    let mut text = String::from("resend from to run\n0 2 2 0\n");
    for (n, (sender, receiver, run)) in SEVEN.iter().enumerate() {
        text += &format!("{} {sender} {receiver} {run}\n", n + 1);
    }
    assert_eq!(plan(&input), text.as_bytes());
    assert_eq!(plan(&input[1..]), b"refused 19\n");
}
