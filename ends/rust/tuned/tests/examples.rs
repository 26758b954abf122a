//! The document's examples, asked of the tuned calls.

const E: [u32; 4] = [1; 4];

fn counts<const N: usize>(shares: [u32; N], q: u32) -> [u32; N] {
    let mut out = [7; N];
    assert_eq!(tuned::counts(&shares, 0, 0, q, &mut out), 0);
    out
}

/// A window between E and E with so many messages sent.
fn window(sent: u64) -> [u64; 457] {
    let mut window = [7; 457];
    assert_eq!(tuned::open(&E, 1, 1, &E, 1, 1, 4, &mut window), 0);
    (1..=sent).for_each(|k| assert_eq!(tuned::send(&mut window, k), 0));
    window
}

/// The refusal of a report without a mask, and how many verdicts it gives.
fn report(window: &mut [u64; 457], member: u32, number: u64, out: &mut [u8]) -> (u32, u64) {
    let mut answer = [7];
    let refusal = tuned::report(window, member, number, 0, out, &mut answer);
    (refusal, answer[0])
}

#[test]
fn dealing() {
    assert_eq!(counts([25; 4], 100), [25; 4]);
    assert_eq!(counts([250; 4], 100), [25; 4]);
    assert_eq!(counts([214, 262, 262, 262], 100), [22, 26, 26, 26]);
    assert_eq!(counts([97, 1, 1, 1], 10), [10, 0, 0, 0]);
    assert_eq!(counts([1; 3], 4), [2, 1, 1]);
    let mut answer = [7; 2];
    assert_eq!(tuned::first_pair(&E, 1, 1, &E, 1, 1, 4, 6, &mut answer), 0);
    assert_eq!(answer, [1, 2]);
}

#[test]
fn seven_resends() {
    let seven = [
        [0, 0, 3],
        [0, 1, 2],
        [1, 1, 1],
        [1, 2, 3],
        [1, 3, 1],
        [2, 3, 2],
        [2, 4, 3],
    ];
    for (n, resend) in (1..).zip(seven) {
        let mut answer = [7; 3];
        assert_eq!(
            tuned::resend_pair(&[1; 3], 1, 0, &[1; 5], 2, 0, 3, 3, n, &mut answer),
            0
        );
        assert_eq!(answer, resend);
    }
}

#[test]
fn one_verdict() {
    let mut window = window(4);
    let mut out = [7; 1024];
    for (member, number) in [(0, 1), (3, 4), (1, 1), (1, 1)] {
        assert_eq!(report(&mut window, member, number, &mut out), (0, 0));
    }
    assert_eq!(report(&mut window, 0, 1, &mut out), (0, 1));
    assert_eq!(out[..17], [2, 0, 0, 0, 0, 0, 0, 0, 2, 2, 1, 0, 0, 0, 0, 0, 7]);
}

#[test]
fn arrivals() {
    let mut holdings = [7; 2];
    tuned::fresh(&mut holdings);
    (2..=64).for_each(|k| assert_eq!(tuned::arrive(&mut holdings, k), 0));
    assert_eq!(tuned::arrive(&mut holdings, 1), 0);
    assert_eq!(holdings, [64, 0]);
}

#[test]
fn limits() {
    assert_eq!(tuned::counts(&[1_000_001], 0, 0, 1, &mut [0]), 2);
    assert_eq!(tuned::counts(&E, 2, 1, 4, &mut [0; 4]), 3);
    assert_eq!(tuned::send(&mut window(64), 65), 9);
    assert_eq!(tuned::arrive(&mut [0; 2], 64), 0);
    assert_eq!(tuned::arrive(&mut [0; 2], 65), 18);
}
