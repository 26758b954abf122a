//! The text form loses nothing: whatever a line says, reading it gives the call and the answer back.

use checks::answer::{line, parse_line, Answer};
use checks::call::Call;
use checks::draw::clusters::{any_link, link};
use checks::draw::records::{link_record, plan_input};
use checks::draw::windows::{noise, window};
use checks::end::{run, Reference};
use checks::layout::WORDS;
use checks::random::Random;

fn assert_read_back(call: &Call, answer: &Answer) {
    let text = line(call, answer);
    assert_eq!(parse_line(&text), Ok((call.clone(), answer.clone())), "{text}");
}

/// Some call of each kind, with random inputs.
fn calls(random: &Random) -> Vec<Call> {
    let (link, window) = (any_link(random, 20), window(random, &link(random)));
    let (k, number, mask, room) = (random.wild(), random.wild(), random.bits(), random.place(2_000));
    let holdings = [random.wild(), random.bits()];
    vec![
        Call::Counts {
            cluster: link.sending.clone(),
            q: link.q,
            room: random.place(100),
        },
        Call::FirstPair { link: link.clone(), k },
        Call::ResendPair {
            link: link.clone(),
            k,
            n: random.wild_32(),
        },
        Call::Open { link },
        Call::Judge { window: noise(random) },
        Call::Send {
            window: window.clone(),
            k,
        },
        Call::Report {
            window: noise(random),
            member: random.wild_32(),
            number,
            mask,
            room,
        },
        Call::Report {
            window,
            member: 0,
            number: 0,
            mask: 0,
            room: 1_024,
        },
        Call::Fresh,
        Call::Arrive { holdings, k },
        Call::ReceiverReport { holdings },
        Call::Read {
            bytes: link_record(random),
        },
        Call::Write {
            kind: random.word() as u8,
            member: random.word() as u8,
            number,
            mask,
            room,
        },
        Call::Plan {
            input: plan_input(random),
        },
    ]
}

#[test]
fn lines_are_read_back() {
    let random = Random::new(1);
    for call in (0..300).flat_map(|_| calls(&random)) {
        assert_read_back(&call, &run(&Reference, &call));
    }
}

/// A wrong end may leave anything behind, and what it left must be told.
#[test]
fn answers_of_wrong_ends_are_read_back() {
    let random = Random::new(2);
    let window = Box::new([7; WORDS]);
    for _ in 0..300 {
        let bytes = |many| {
            (0..many)
                .map(|_| random.pick(&[0, 0xaa, b' ', b'\n', b'_', random.word() as u8]))
                .collect()
        };
        let state = noise(&random).to_vec();
        let report = Call::Report {
            window: window.clone(),
            member: 0,
            number: 0,
            mask: 0,
            room: 1_024,
        };
        let numbers = vec![random.wild()];
        let answer = Answer {
            returned: random.wild(),
            numbers,
            state,
            bytes: bytes(1_024),
            ..Answer::default()
        };
        assert_read_back(&report, &answer);
        let returned = random.pick(&[random.between(0, 4_000), random.wild()]);
        let answer = Answer {
            returned,
            bytes: bytes(3_458),
            ..Answer::default()
        };
        assert_read_back(&Call::Plan { input: vec![] }, &answer);
    }
}

#[test]
fn slips_of_the_pen_are_told() {
    for wrong in [
        "",
        "fresh",
        "fresh -> 0",
        "fresh -> 0 holdings=0,0x0 more",
        "fresh -> 0 holdings=0",
        "fresher -> 0 holdings=0,0x0",
        "receiver_report holdings=0,0x0 answer=0,0",
        "read bytes=0 -> 16 answer=0,0,0,0",
        "read bytes=0g -> 16 answer=0,0,0,0",
        "read bytes=00*10000000000 -> 16 answer=0,0,0,0",
        "counts shares=1,4294967296 u=0 r=0 q=1 room=1 -> 1 out=0",
        "counts u=0 shares=1 r=0 q=1 room=1 -> 0 out=1",
        "judge { sending=1 } -> 17",
        "judge { sent=1,2 } -> 17",
        "judge { sent=1 -> 17",
        "judge { sent=-1 } -> 17",
        "judge { sent=+1 } -> 17",
        "write kind=1 member=0 number=0 mask=0 room=10000000000 -> 0 out=-",
        "open sending=- u=0 r=0 receiving=- u=0 r=0 q=0 -> 1 same",
        "plan input=- -> 11 text=refused 19/ rest=aa*3447",
    ] {
        assert!(parse_line(wrong).is_err(), "`{wrong}` was read");
    }
}
