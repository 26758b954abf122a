//! Every example of document 01, with the document's own numbers.

use reference::*;

/// The plan program's records: kind and two numbers.
fn input(records: &[(u8, u32, u32)]) -> Vec<u8> {
    let bytes = |&(kind, a, b): &(u8, u32, u32)| {
        [vec![kind, 0, 0, 0], a.to_le_bytes().to_vec(), b.to_le_bytes().to_vec()].concat()
    };
    records.iter().flat_map(bytes).collect()
}

fn counts_of(shares: &[u32], u: u32, r: u32, q: u32) -> Vec<u32> {
    let mut out = vec![0; shares.len()];
    assert_eq!(counts(shares, u, r, q, &mut out), 0);
    out
}

/// Message k of a window between E and E, q 4.
fn first_of_e(k: u64) -> [u64; 2] {
    let mut answer = [0; 2];
    assert_eq!(first_pair(&[1; 4], 1, 1, &[1; 4], 1, 1, 4, k, &mut answer), 0);
    answer
}

fn e_with_sent(sent: u64) -> [u64; 457] {
    let mut window = [0; 457];
    assert_eq!(open(&[1; 4], 1, 1, &[1; 4], 1, 1, 4, &mut window), 0);
    for k in 1..=sent {
        assert_eq!(send(&mut window, k), 0);
    }
    window
}

/// The verdicts of an accepted report.
fn verdicts(window: &mut [u64; 457], member: u32, number: u64) -> Vec<Vec<u8>> {
    let (mut out, mut answer) = ([0xaa; 1024], [7]);
    assert_eq!(report(window, member, number, 0, &mut out, &mut answer), 0);
    let written = 16 * answer[0] as usize;
    assert!(out[written..].iter().all(|&byte| byte == 0xaa));
    out[..written].chunks(16).map(<[u8]>::to_vec).collect()
}

const POINT: usize = 136;

#[test]
fn counts_of_figure_5() {
    assert_eq!(counts_of(&[25; 4], 0, 0, 100), [25; 4]);
    assert_eq!(counts_of(&[250; 4], 0, 0, 100), [25; 4]);
    assert_eq!(counts_of(&[214, 262, 262, 262], 0, 0, 100), [22, 26, 26, 26]);
    assert_eq!(counts_of(&[97, 1, 1, 1], 0, 0, 10), [10, 0, 0, 0]);
}

#[test]
fn equal_remainders_go_to_the_lower_member() {
    assert_eq!(counts_of(&[1, 1, 1], 0, 0, 4), [2, 1, 1]);
}

#[test]
fn counts_2_1_3_deal_0_1_2_0_2_2() {
    let senders = (1..=6).map(|k| {
        let mut answer = [0; 2];
        assert_eq!(first_pair(&[2, 1, 3], 0, 0, &[1], 0, 0, 6, k, &mut answer), 0);
        answer[0]
    });
    assert_eq!(senders.collect::<Vec<_>>(), [0, 1, 2, 0, 2, 2]);
}

#[test]
fn message_6_of_e() {
    assert_eq!(first_of_e(6), [1, 2]);
    for (n, pair) in (1..).zip([[2, 2, 1], [3, 3, 1], [0, 0, 1], [1, 1, 1]]) {
        let mut answer = [0; 3];
        assert_eq!(resend_pair(&[1; 4], 1, 1, &[1; 4], 1, 1, 4, 6, n, &mut answer), 0);
        assert_eq!(answer, pair);
    }
}

#[test]
fn the_plan_of_three_to_five() {
    let shares = |kind, many| vec![(kind, 1, 0); many];
    let records = [
        vec![(1, 1, 0)],
        shares(2, 3),
        vec![(3, 2, 0)],
        shares(4, 5),
        vec![(5, 3, 3)],
    ]
    .concat();
    let text = "resend from to run\n0 2 2 0\n1 0 0 3\n2 0 1 2\n3 1 1 1\n4 1 2 3\n5 1 3 1\n6 2 3 2\n7 2 4 3\n";
    let mut out = [0xaa; 3458];
    assert_eq!(plan(&input(&records), &mut out), text.len());
    assert_eq!(&out[..text.len()], text.as_bytes());
    assert!(out[text.len()..].iter().all(|&byte| byte == 0xaa));
}

/// "With sender 1 and receivers 0, 1 failed, the first good one is resend 6, after 10 units; the bound is 5 + 6."
#[test]
fn the_first_good_resend_of_three_to_five() {
    let mut units = 0;
    for n in 1.. {
        let mut answer = [0; 3];
        assert_eq!(resend_pair(&[1; 3], 1, 0, &[1; 5], 2, 0, 3, 3, n, &mut answer), 0);
        if answer[0] != 1 && answer[1] > 1 {
            assert_eq!((n, units), (6, 10));
            break;
        }
        units += answer[2];
    }
    let (u_sending, u_receiving, sending_scale, receiving_scale) = (1, 2, 15 / 3, 15 / 5);
    assert_eq!((u_sending * sending_scale, u_receiving * receiving_scale), (5, 6));
}

#[test]
fn e_to_four_shares_of_a_million() {
    for (n, pair) in (1..).zip([[0, 0, 1_000_000], [1, 1, 1_000_000], [2, 2, 1_000_000]]) {
        let mut answer = [0; 3];
        let (u, r) = (1_333_333, 1_333_333);
        // Message 4 is member 3's, whose stretch ends where unit 0 is.
        assert_eq!(
            resend_pair(&[1; 4], 1, 1, &[1_000_000; 4], u, r, 4, 4, n, &mut answer),
            0
        );
        assert_eq!(answer, pair);
    }
}

#[test]
fn the_collecting_point_and_the_verdict_of_e() {
    let mut window = e_with_sent(4);
    assert!(verdicts(&mut window, 0, 1).is_empty());
    assert_eq!(window[POINT], 0);
    assert!(verdicts(&mut window, 3, 4).is_empty());
    assert_eq!(window[POINT], 1);
    assert!(verdicts(&mut window, 1, 1).is_empty());
    assert!(verdicts(&mut window, 1, 1).is_empty());
    let verdict = [2, 0, 0, 0, 0, 0, 0, 0, 2, 2, 1, 0, 0, 0, 0, 0];
    assert_eq!(verdicts(&mut window, 0, 1), [verdict]);
}

#[test]
fn messages_2_to_64_arrive_then_1() {
    let mut holdings = [9; 2];
    fresh(&mut holdings);
    for k in (2..=64).chain([1]) {
        assert_eq!(arrive(&mut holdings, k), 0);
    }
    assert_eq!(holdings, [64, 0]);
}

#[test]
fn the_limits_named_last() {
    assert_eq!(counts_of(&[1_000_000], 0, 0, 1), [1]);
    assert_eq!(counts(&[1_000_001], 0, 0, 1, &mut [0]), 2);
    assert_eq!(counts(&[1; 4], 2, 1, 4, &mut [0; 4]), 3);
    let mut window = e_with_sent(64);
    assert_eq!(send(&mut window, 65), 9);
    assert_eq!(arrive(&mut [0; 2], 64), 0);
    assert_eq!(arrive(&mut [0; 2], 65), 18);
}
