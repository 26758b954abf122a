//! Each refusal number, and that a refusal changes nothing and answers zeros.

use reference::*;

/// E, with both ends of it refused one by one.
const E: ([u32; 4], u32, u32) = ([1; 4], 1, 1);

fn counts_refusal(shares: &[u32], u: u32, r: u32, q: u32, places: usize) -> u32 {
    let mut out = vec![0xaaaa_aaaa; places];
    let number = counts(shares, u, r, q, &mut out);
    assert!(number == 0 || out.iter().all(|&place| place == 0xaaaa_aaaa));
    number
}

fn resend_refusal(sending: &[u32], receiving: &[u32], q: u32, k: u64, n: u32) -> u32 {
    let mut answer = [7; 3];
    let number = resend_pair(sending, 1, 1, receiving, 1, 1, q, k, n, &mut answer);
    assert_eq!(number != 0, answer == [0; 3]);
    number
}

fn e_with_sent(sent: u64) -> [u64; 457] {
    let mut window = [0; 457];
    let (shares, u, r) = E;
    assert_eq!(open(&shares, u, r, &shares, u, r, 4, &mut window), 0);
    for k in 1..=sent {
        assert_eq!(send(&mut window, k), 0);
    }
    window
}

fn send_refusal(window: &[u64; 457], k: u64) -> u32 {
    let mut after = *window;
    let number = send(&mut after, k);
    assert_eq!(number != 0, after == *window);
    number
}

fn report_refusal(window: &[u64; 457], member: u32, number: u64, mask: u64, room: usize) -> u32 {
    let (mut after, mut out, mut answer) = (*window, vec![0xaa; room], [7]);
    let refusal = report(&mut after, member, number, mask, &mut out, &mut answer);
    assert_eq!(refusal != 0, after == *window);
    assert!(out.iter().all(|&byte| byte == 0xaa));
    assert_eq!(answer, [0]);
    refusal
}

fn read_refusal(bytes: &[u8]) -> u32 {
    let mut answer = [7; 4];
    let number = read(bytes, &mut answer);
    assert!(number == 0 || answer == [0; 4]);
    number
}

fn write_refusal(kind: u8, member: u8, number: u64, mask: u64, room: usize) -> u32 {
    let mut out = vec![0xaa; room];
    let refusal = write(kind, member, number, mask, &mut out);
    assert!(refusal == 0 || out.iter().all(|&byte| byte == 0xaa));
    refusal
}

#[test]
fn numbers_1_to_5_of_counts() {
    assert_eq!(counts_refusal(&[], 0, 0, 4, 0), 1);
    assert_eq!(counts_refusal(&[1; 65], 1, 1, 4, 65), 1);
    assert_eq!(counts_refusal(&[1; 64], 1, 1, 4, 64), 0);
    assert_eq!(counts_refusal(&[1, 0, 1, 1], 1, 1, 4, 4), 2);
    assert_eq!(counts_refusal(&[1; 4], 0, 1, 4, 4), 3);
    assert_eq!(counts_refusal(&[1; 4], u32::MAX, u32::MAX, 4, 4), 3);
    assert_eq!(counts_refusal(&[1; 4], 1, 1, 0, 4), 4);
    assert_eq!(counts_refusal(&[1; 4], 1, 1, 1_025, 4), 4);
    assert_eq!(counts_refusal(&[1; 4], 1, 1, 1_024, 4), 0);
    assert_eq!(counts_refusal(&[1; 4], 1, 1, 4, 3), 5);
}

#[test]
fn numbers_6_and_7_of_pairs() {
    assert_eq!(resend_refusal(&[1; 4], &[1; 4], 4, 0, 1), 6);
    assert_eq!(resend_refusal(&[1; 4], &[1; 4], 4, 1_000_000_000_001, 1), 6);
    assert_eq!(resend_refusal(&[1; 4], &[1; 4], 4, 1_000_000_000_000, 0), 7);
    assert_eq!(resend_refusal(&[1; 4], &[1; 4], 4, 1_000_000_000_000, 256), 7);
    assert_eq!(resend_refusal(&[1; 4], &[1; 4], 4, 1_000_000_000_000, 255), 0);
    let mut answer = [7; 2];
    assert_eq!(first_pair(&[1; 4], 1, 1, &[1; 4], 1, 1, 4, 0, &mut answer), 6);
    assert_eq!(answer, [0; 2]);
}

#[test]
fn the_sending_cluster_is_judged_first() {
    assert_eq!(resend_refusal(&[0; 4], &[], 0, 0, 0), 2);
    assert_eq!(resend_refusal(&[1; 3], &[], 0, 0, 0), 3);
    assert_eq!(resend_refusal(&[1; 4], &[], 0, 0, 0), 1);
    assert_eq!(resend_refusal(&[1; 4], &[1; 4], 0, 0, 0), 4);
    assert_eq!(resend_refusal(&[1; 4], &[1; 4], 4, 0, 0), 6);
}

#[test]
fn a_refused_opening_hands_back_zeros() {
    let mut window = [7; 457];
    assert_eq!(open(&[1; 4], 1, 1, &[1; 4], 1, 1, 0, &mut window), 4);
    assert_eq!(window, [0; 457]);
    assert_eq!(judge(&window), 17);
}

#[test]
fn number_8_and_11_to_13_and_5_of_reports() {
    let mut window = e_with_sent(4);
    assert_eq!(report_refusal(&window, 0, 0, 0, 1_023), 5);
    assert_eq!(report_refusal(&window, 4, 0, 0, 1_024), 8);
    assert_eq!(report_refusal(&window, 0, 0, 1, 1_024), 12);
    assert_eq!(report_refusal(&window, 0, 5, 0, 1_024), 11);
    assert_eq!(report_refusal(&window, 0, 1, 8, 1_024), 11);
    assert_eq!(report_refusal(&window, 0, u64::MAX, 1 << 63, 1_024), 11);
    assert_eq!(report(&mut window, 0, 1, 2, &mut [0; 1_024], &mut [0]), 0);
    assert_eq!(report_refusal(&window, 0, 0, 0, 1_024), 13);
    assert_eq!(report_refusal(&window, 0, 1, 4, 1_024), 13);
    assert_eq!(report_refusal(&window, 0, 2, 0, 1_024), 13);
    assert_eq!(report_refusal(&window, 0, 2, 2, 1_024), 13);
    assert_eq!(report_refusal(&window, 0, 3, 0, 1_024), 0);
}

#[test]
fn numbers_6_9_10_and_17_of_sending() {
    let window = e_with_sent(64);
    assert_eq!(send_refusal(&window, 0), 6);
    assert_eq!(send_refusal(&window, u64::MAX), 6);
    assert_eq!(send_refusal(&window, 64), 10);
    assert_eq!(send_refusal(&window, 66), 10);
    assert_eq!(send_refusal(&window, 65), 9);
    assert_eq!(send_refusal(&[u64::MAX; 457], 65), 17);
    assert_eq!(report_refusal(&[u64::MAX; 457], 0, 0, 0, 0), 17);
}

#[test]
fn numbers_6_17_and_18_of_holdings() {
    assert_eq!(arrive(&mut [0, 1], 0), 17);
    assert_eq!(arrive(&mut [u64::MAX, u64::MAX - 1], 0), 17);
    assert_eq!(arrive(&mut [0, 0], 0), 6);
    assert_eq!(arrive(&mut [0, 0], 1_000_000_000_001), 6);
    assert_eq!(arrive(&mut [0, 0], 65), 18);
    let mut answer = [7; 2];
    assert_eq!(receiver_report(&[1_000_000_000_000, 2], &mut answer), 17);
    assert_eq!(answer, [0; 2]);
}

#[test]
fn numbers_14_to_16_of_reading() {
    let bytes = |kind, at, byte| {
        let mut bytes = [0; 24];
        bytes[0] = kind;
        bytes[at] = byte;
        bytes
    };
    assert_eq!(read_refusal(&[3; 23]), 16);
    assert_eq!(read_refusal(&[3; 24]), 14);
    assert_eq!(read_refusal(&bytes(127, 1, 0)), 14);
    assert_eq!(read_refusal(&bytes(128, 7, 9)), 0);
    assert_eq!(read_refusal(&bytes(0, 1, 1)), 15);
    assert_eq!(read_refusal(&bytes(1, 7, 1)), 15);
    assert_eq!(read_refusal(&bytes(1, 16, 1)), 0);
    assert_eq!(read_refusal(&bytes(2, 23, 1)), 15);
}

#[test]
fn numbers_5_14_and_15_of_writing() {
    assert_eq!(write_refusal(3, 0, 0, 0, 0), 14);
    assert_eq!(write_refusal(255, 0, 0, 0, 24), 14);
    assert_eq!(write_refusal(0, 1, 0, 0, 0), 15);
    assert_eq!(write_refusal(2, 1, 1, 1, 24), 15);
    assert_eq!(write_refusal(2, 1, 1, 0, 23), 5);
    assert_eq!(write_refusal(2, 1, 1, 0, 24), 0);
}

#[test]
fn number_19_and_others_of_the_plan() {
    let refused = |input: &[u8]| {
        let mut out = [0xaa; 3458];
        let many = plan(input, &mut out);
        String::from_utf8_lossy(&out[..many]).into_owned()
    };
    assert_eq!(refused(&[]), "refused 19\n");
    assert_eq!(refused(&[0; 4_097]), "refused 19\n");
    let bounds = |kind| [kind, 0, 0, 0, 0, 0, 0, 0, 0, 0, 0, 0];
    assert_eq!(refused(&[bounds(1), bounds(3), bounds(5)].concat()), "refused 1\n");
    assert_eq!(
        refused(&[bounds(1), bounds(2), bounds(3), bounds(5)].concat()),
        "refused 2\n"
    );
    assert_eq!(
        refused(&[bounds(1), bounds(3), bounds(2), bounds(5)].concat()),
        "refused 19\n"
    );
}
