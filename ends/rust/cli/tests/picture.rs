//! The picture: well formed, the same every time, and with all that it should show.

mod common;

use common::run;
use std::fs;
use std::path::PathBuf;

const EXAMPLE: &str = "plan --sending 1,1,1 --su 1 --sr 0 --receiving 1,1,1,1,1 --ru 2 --rr 0 --quantum 3 --message 3 \
                       --failed-senders 1 --failed-receivers 0,1";

const LARGE: &str = "plan --sending 999999x32,1000000x32 --su 1 --sr 0 --receiving 999983x63,3 --ru 1000000 --rr 0 \
                     --quantum 1024 --message 1000000000000 --failed-receivers 63";

const SINGLE: &str = "plan --sending 1 --su 0 --sr 0 --receiving 1x2 --ru 0 --rr 0 --quantum 1 --message 1";

/// The picture of a plan, drawn into a file of this name.
fn picture(arguments: &str, name: &str) -> String {
    let file = PathBuf::from(env!("CARGO_TARGET_TMPDIR")).join(name);
    let run = run(&format!("{arguments} --svg {}", file.display()));
    assert_eq!((run.err.as_str(), run.code), ("", Some(0)));
    assert!(run.text().contains("\nresend "), "the table is printed as well");
    fs::read_to_string(file).unwrap()
}

/// Asserts that every element that starts also ends, in the right order, and that no text holds a bare sign.
fn assert_well_formed(svg: &str) {
    let mut open = Vec::new();
    for part in svg.split('<').skip(1) {
        let (tag, text) = part.split_once('>').expect("a tag ends");
        assert!(!text.contains('>') && !text.contains('&'), "{text}");
        assert_eq!(tag.matches('"').count() % 2, 0, "{tag}");
        if let Some(name) = tag.strip_prefix('/') {
            assert_eq!(open.pop(), Some(name));
        } else if !tag.ends_with('/') {
            open.push(tag.split(' ').next().unwrap());
        }
    }
    assert!(open.is_empty());
}

fn paths(svg: &str, class: &str) -> usize {
    svg.matches(&format!("<path class=\"{class}\" d=")).count()
}

#[test]
fn pictures_are_well_formed() {
    for (arguments, name) in [(EXAMPLE, "example.svg"), (LARGE, "large.svg"), (SINGLE, "single.svg")] {
        let svg = picture(arguments, name);
        assert!(svg.starts_with("<svg xmlns=\"http://www.w3.org/2000/svg\" "));
        assert!(!svg.contains("NaN") && !svg.contains("inf") && !svg.contains("-0.00"));
        assert_well_formed(&svg);
    }
}

#[test]
fn a_plan_is_always_drawn_the_same() {
    assert_eq!(picture(LARGE, "once.svg"), picture(LARGE, "again.svg"));
}

#[test]
fn the_example_shows_members_and_resends() {
    let svg = picture(EXAMPLE, "shown.svg");
    assert_eq!(paths(&svg, "failed"), 3);
    assert_eq!(paths(&svg, "sending-even") + paths(&svg, "sending-odd"), 2);
    assert_eq!(paths(&svg, "receiving-even") + paths(&svg, "receiving-odd"), 3);
    assert_eq!(
        (paths(&svg, "spoilt"), paths(&svg, "first-good"), paths(&svg, "good")),
        (5, 1, 1)
    );
    assert_eq!(svg.matches("<text class=\"member").count(), 8);
    assert_eq!(svg.matches("<text class=\"resend").count(), 7);
    assert!(svg.contains(">resend 6: 2 → 3</text>"));
    assert!(svg.contains(">after 10 units</text>"));
    assert!(svg.contains(">bound 5 + 6 = 11</text>"));
}

#[test]
fn a_crowded_picture_leaves_labels_out() {
    let svg = picture(LARGE, "crowded.svg");
    assert_eq!(
        paths(&svg, "spoilt") + paths(&svg, "first-good") + paths(&svg, "good"),
        127
    );
    assert!(svg.matches("<text class=\"resend").count() < 127);
}
