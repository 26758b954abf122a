//! States as they are kept, and records as they are read back.

use havdorlek::{Cluster, Holdings, Record, Refusal, Window};

const E: Cluster = Cluster {
    shares: &[1; 4],
    u: 1,
    r: 1,
};

fn window() -> Window {
    let mut window = Window::open(E, E, 4).unwrap();
    (1..=6).for_each(|k| window.send(k).unwrap());
    for member in [0, 1] {
        window.report(member, 3, 0b10).unwrap();
    }
    window
}

#[test]
fn a_window_is_read_back() {
    let window = window();
    assert_eq!(Window::from_words(*window.words()), Ok(window));
}

#[test]
fn a_state_that_was_tampered_with_is_refused() {
    let words = *window().words();
    for at in 0..words.len() {
        let mut other = words;
        other[at] = u64::MAX;
        assert_eq!(Window::from_words(other), Err(Refusal::NotFormed), "word {at}");
    }
}

#[test]
fn orders_up_to_the_point_may_be_dropped() {
    let window = window();
    assert_eq!((window.point(), window.sent()), (3, 6));
    let dropped: Vec<u64> = (0..=7).filter(|&k| window.may_drop(k)).collect();
    assert_eq!(dropped, [1, 2, 3]);
}

#[test]
fn open_messages_have_resend_counts() {
    let mut window = window();
    let counts = |window: &Window| -> Vec<_> { (3..=7).map(|k| window.resend_count(k)).collect() };
    // Members 0 and 1 hold 5 and have complained of 4: it was sent again once. Now members 2 and 3 complain of it.
    assert_eq!(counts(&window), [None, Some(1), Some(0), Some(0), None]);
    assert_eq!(window.report(2, 3, 0b110).unwrap().len(), 0);
    assert_eq!(window.report(3, 3, 0b110).unwrap().len(), 1);
    assert_eq!(counts(&window), [None, Some(2), Some(0), Some(0), None]);
}

#[test]
fn holdings_are_read_back() {
    let mut holdings = Holdings::default();
    holdings.arrive(1).unwrap();
    holdings.arrive(3).unwrap();
    assert_eq!(holdings.words(), [1, 0b10]);
    assert_eq!(Holdings::from_words([1, 0b10]), Ok(holdings));
}

#[test]
fn records_are_read_back() {
    let report = Record::Report {
        member: 200,
        number: u64::MAX,
        mask: 1,
    };
    let arrival = Record::Arrival { member: 63, number: 7 };
    for record in [Record::Unused, report, arrival] {
        let bytes = record.write().unwrap();
        assert_eq!(Record::read(&bytes), Ok(record));
    }
    assert_eq!(Record::read(&[255; 24]), Ok(Record::Private { kind: 255 }));
}
