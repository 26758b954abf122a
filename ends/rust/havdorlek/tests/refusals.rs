//! Every refusal, by its number, its words and a call that gives it.

use havdorlek::{counts, first_pair, plan, raw, resend_pair, Cluster, Holdings, Record, Refusal, Window};

const E: Cluster = Cluster {
    shares: &[1; 4],
    u: 1,
    r: 1,
};

const LIMIT: u64 = 1_000_000_000_000;

fn window() -> Window {
    let mut window = Window::open(E, E, 4).unwrap();
    (1..=4).for_each(|k| window.send(k).unwrap());
    window.report(0, 2, 0b10).unwrap();
    window
}

#[test]
fn numbers_go_from_1_to_19() {
    for (n, refusal) in (1..).zip(Refusal::ALL) {
        assert_eq!(refusal.number(), n);
        assert_eq!(Refusal::from_number(n), Some(refusal));
        assert_eq!(refusal.to_string(), format!("refused {n}: {}", refusal.words()));
    }
    assert_eq!(Refusal::from_number(0), None);
    assert_eq!(Refusal::from_number(20), None);
}

#[test]
fn of_clusters_and_quantum() {
    let of = |shares, u, r| counts(Cluster { shares, u, r }, 4).map(|_| ());
    assert_eq!(of(&[], 0, 0), Err(Refusal::Members));
    assert_eq!(of(&[1; 65], 0, 0), Err(Refusal::Members));
    assert_eq!(of(&[1, 0], 0, 0), Err(Refusal::Share));
    assert_eq!(of(&[1; 4], 0, 1), Err(Refusal::Bounds));
    assert_eq!(of(&[1; 4], 2, 0), Err(Refusal::Bounds));
    assert_eq!(of(&[1; 4], u32::MAX, u32::MAX), Err(Refusal::Bounds));
    assert_eq!(counts(E, 0), Err(Refusal::Quantum));
    assert_eq!(counts(E, 1025), Err(Refusal::Quantum));
}

#[test]
fn the_sending_cluster_is_judged_first() {
    let none = Cluster { shares: &[], ..E };
    let zero = Cluster { shares: &[0], ..E };
    assert_eq!(first_pair(zero, none, 0, 0), Err(Refusal::Share));
    assert_eq!(first_pair(E, none, 0, 0), Err(Refusal::Members));
    assert_eq!(first_pair(E, E, 0, 0), Err(Refusal::Quantum));
    assert_eq!(Window::open(none, zero, 0), Err(Refusal::Members));
}

#[test]
fn of_messages_and_resends() {
    assert_eq!(first_pair(E, E, 4, 0), Err(Refusal::Message));
    assert_eq!(first_pair(E, E, 4, LIMIT + 1), Err(Refusal::Message));
    assert!(first_pair(E, E, 4, LIMIT).is_ok());
    assert_eq!(resend_pair(E, E, 4, 0, 0), Err(Refusal::Message));
    assert_eq!(resend_pair(E, E, 4, 1, 0), Err(Refusal::Resend));
    assert_eq!(resend_pair(E, E, 4, 1, 256), Err(Refusal::Resend));
    assert!(resend_pair(E, E, 4, 1, 255).is_ok());
}

#[test]
fn of_outputs() {
    let mut out = [7; 3];
    assert_eq!(raw::counts(&[1; 4], 1, 1, 4, &mut out), Refusal::ShortOutput.number());
    assert_eq!(out, [7; 3]);
    let mut words = *window().words();
    let mut answer = [7];
    let refusal = raw::report(&mut words, 0, 2, 2, &mut [0; 1023], &mut answer);
    assert_eq!((refusal, answer), (Refusal::ShortOutput.number(), [0]));
    assert_eq!(raw::write(1, 0, 0, 0, &mut [0; 23]), Refusal::ShortOutput.number());
}

#[test]
fn of_sending() {
    let mut window = window();
    assert_eq!(window.send(0), Err(Refusal::Message));
    assert_eq!(window.send(6), Err(Refusal::NotNext));
    assert_eq!(window.send(4), Err(Refusal::NotNext));
    (5..=64).for_each(|k| window.send(k).unwrap());
    assert_eq!(window.send(65), Err(Refusal::WindowFull));
}

#[test]
fn of_reports() {
    let mut window = window();
    let before = window.clone();
    assert_eq!(window.report(4, 0, 0), Err(Refusal::NoMember));
    assert_eq!(window.report(0, 2, 3), Err(Refusal::Bit0));
    assert_eq!(window.report(0, 5, 0), Err(Refusal::NotSent));
    assert_eq!(window.report(0, 2, 4), Err(Refusal::NotSent));
    assert_eq!(window.report(0, 1, 0b110), Err(Refusal::LacksFormer));
    assert_eq!(window.report(0, 2, 0), Err(Refusal::LacksFormer));
    assert_eq!(window, before);
}

#[test]
fn of_records() {
    assert_eq!(Record::read(&[0; 23]), Err(Refusal::Length));
    let mut bytes = [0; 24];
    bytes[0] = 3;
    assert_eq!(Record::read(&bytes), Err(Refusal::Kind));
    bytes[0] = 2;
    bytes[16] = 1;
    assert_eq!(Record::read(&bytes), Err(Refusal::NotZero));
    for kind in [1, 128] {
        assert_eq!(Record::Private { kind }.write(), Err(Refusal::Kind));
    }
    assert_eq!(raw::write(2, 0, 1, 1, &mut [0; 24]), Refusal::NotZero.number());
}

#[test]
fn of_states_and_holdings() {
    assert_eq!(Window::from_words([0; 457]), Err(Refusal::NotFormed));
    assert_eq!(Holdings::from_words([0, 1]), Err(Refusal::NotFormed));
    assert_eq!(Holdings::from_words([LIMIT, 2]), Err(Refusal::NotFormed));
    let mut holdings = Holdings::fresh();
    assert_eq!(holdings.arrive(0), Err(Refusal::Message));
    assert_eq!(holdings.arrive(65), Err(Refusal::TooFar));
    assert_eq!(holdings, Holdings::fresh());
}

#[test]
fn of_the_plan_program() {
    assert_eq!(plan(b"no records"), b"refused 19\n");
    assert_eq!(Refusal::BadlyBuilt.number(), 19);
}
