//! What is refused, and which arguments are not understood.

mod common;

use common::{run, run_all, Run};

/// The example, with some options given otherwise.
fn example_with(changes: &[(&str, &str)]) -> Run {
    let options = [
        ("--sending", "1,1,1"),
        ("--sending-u", "1"),
        ("--sending-r", "0"),
        ("--receiving", "1,1,1,1,1"),
        ("--receiving-u", "2"),
        ("--receiving-r", "0"),
        ("--quantum", "3"),
        ("--message", "3"),
    ];
    let added = changes
        .iter()
        .filter(|(name, _)| !options.iter().any(|option| option.0 == *name));
    let changed = |&(name, value)| *changes.iter().find(|change| change.0 == name).unwrap_or(&(name, value));
    let all = options.iter().map(changed).chain(added.copied());
    let arguments: Vec<&str> = ["plan"]
        .into_iter()
        .chain(all.flat_map(|(name, value)| [name, value]))
        .collect();
    run_all(&arguments)
}

fn assert_refused(changes: &[(&str, &str)], words: &str) {
    let run = example_with(changes);
    assert_eq!(run.err, format!("havdorlek: {words}\n"));
    assert_eq!((run.text(), run.code), ("", Some(1)));
}

fn assert_usage(run: &Run, words: &str) {
    assert_eq!(run.err, format!("havdorlek: {words}; see havdorlek --help\n"));
    assert_eq!((run.text(), run.code), ("", Some(2)));
}

#[test]
fn refusals_of_either_cluster() {
    for (name, u, r, cluster) in [
        ("--sending", "--sending-u", "--sending-r", "sending"),
        ("--receiving", "--receiving-u", "--receiving-r", "receiving"),
    ] {
        let refused = |change, words: &str| assert_refused(&[change], &format!("refused {words} ({cluster} cluster)"));
        refused((name, ""), "1: 0 or more than 64 members");
        refused((name, "1x65"), "1: 0 or more than 64 members");
        refused((name, "1,0,1"), "2: a share is 0 or above 1,000,000");
        refused((name, "1000001"), "2: a share is 0 or above 1,000,000");
        refused((u, "3"), "3: r above u, or D below 2u + r + 1");
        refused((r, "4294967295"), "3: r above u, or D below 2u + r + 1");
    }
}

#[test]
fn refusals_of_quantum_and_message() {
    assert_refused(&[("--quantum", "0")], "refused 4: q is 0 or above 1,024");
    assert_refused(&[("--quantum", "1025")], "refused 4: q is 0 or above 1,024");
    assert_refused(&[("--message", "0")], "refused 6: message number 0 or above its limit");
    assert_refused(
        &[("--message", "1000000000001")],
        "refused 6: message number 0 or above its limit",
    );
}

#[test]
fn the_sending_cluster_is_named_first() {
    let both = [("--sending", "0"), ("--receiving", "0")];
    assert_refused(&both, "refused 2: a share is 0 or above 1,000,000 (sending cluster)");
    let other = [("--sending", ""), ("--receiving", "0")];
    assert_refused(&other, "refused 1: 0 or more than 64 members (sending cluster)");
}

#[test]
fn records_are_written_of_what_the_plan_program_refuses() {
    let run = run("plan --sending 0 --su 0 --sr 0 --receiving 1 --ru 0 --rr 0 --quantum 1 --message 1 --records");
    assert_eq!(havdorlek::plan(&run.out), b"refused 2\n");
    assert_eq!(run.code, Some(0));
}

#[test]
fn numbers_that_are_none() {
    let narrow = "expected a whole number from 0 to 4294967295, got";
    assert_usage(
        &example_with(&[("--sending", "1,,1")]),
        &format!("--sending: {narrow} ''"),
    );
    assert_usage(
        &example_with(&[("--receiving", "1,-1")]),
        &format!("--receiving: {narrow} '-1'"),
    );
    assert_usage(
        &example_with(&[("--sending", "4294967296")]),
        &format!("--sending: {narrow} '4294967296'"),
    );
    assert_usage(
        &example_with(&[("--sending-u", "+1")]),
        &format!("--sending-u: {narrow} '+1'"),
    );
    assert_usage(
        &example_with(&[("--quantum", "three")]),
        &format!("--quantum: {narrow} 'three'"),
    );
    assert_usage(
        &example_with(&[("--failed-senders", "a")]),
        &format!("--failed-senders: {narrow} 'a'"),
    );
    let wide = "--message: expected a whole number from 0 to 18446744073709551615, got '1.5'";
    assert_usage(&example_with(&[("--message", "1.5")]), wide);
    let often = "--sending: '1x1001' repeats a share more than 1000 times";
    assert_usage(&example_with(&[("--sending", "1x1001")]), often);
}

#[test]
fn failed_members_that_are_not_there() {
    let sender = "--failed-senders: there is no member 3; expected members from 0 to 2";
    assert_usage(&example_with(&[("--failed-senders", "0,3")]), sender);
    let receiver = "--failed-receivers: there is no member 5; expected members from 0 to 4";
    assert_usage(&example_with(&[("--failed-receivers", "5")]), receiver);
}

#[test]
fn arguments_that_are_not_understood() {
    assert_usage(&run(""), "no command; expected plan");
    assert_usage(&run("draw"), "unknown command 'draw'; expected plan");
    assert_usage(&run("plan --share 1"), "unknown argument '--share'");
    assert_usage(
        &run("plan --sending"),
        "--sending: nothing behind it; expected shares, as 1,1,1",
    );
    assert_usage(
        &run("plan --su 1 --sending-u 1"),
        "--sending-u: given twice; expected once",
    );
    assert_usage(
        &run("plan --sending 1"),
        "--sending-u: missing; expected a number, as 1",
    );
}

#[test]
fn what_does_not_go_with_records() {
    let arguments = "plan --sending 1 --su 0 --sr 0 --receiving 1 --ru 0 --rr 0 --quantum 1 --records";
    let picture = run(&format!("{arguments} --message 1 --svg picture.svg"));
    assert_usage(&picture, "--records: writes nothing else; expected no --svg with it");
    let long = run(&format!("{arguments} --message 4294967296"));
    assert_usage(
        &long,
        "--message: a record has 32 bits for it; expected at most 4294967295 with --records",
    );
}

#[test]
fn a_file_that_cannot_be_written() {
    let run = example_with(&[("--svg", "no-such-directory/picture.svg")]);
    assert!(run
        .err
        .starts_with("havdorlek: cannot write no-such-directory/picture.svg: "));
    assert_eq!(run.code, Some(2));
}
