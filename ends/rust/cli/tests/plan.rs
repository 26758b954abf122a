//! The table and the records of the document's example.

mod common;

use common::run;
use std::fs;

const EXAMPLE: &str = "plan --sending 1,1,1 --sending-u 1 --sending-r 0 --receiving 1,1,1,1,1 --receiving-u 2 \
                       --receiving-r 0 --quantum 3 --message 3";

const TABLE: &str = "\
sending    3 members, D 3, u 1, r 0; failed: 1 (share 1)
receiving  5 members, D 5, u 2, r 0; failed: 0, 1 (share 2)
quantum    3
message    3
circle     15 units

resend  from  to  run  before
     0     2   2    0       -  first copy
     1     0   0    3       0  receiver failed
     2     0   1    2       3  receiver failed
     3     1   1    1       5  both ends failed
     4     1   2    3       6  sender failed
     5     1   3    1       9  sender failed
     6     2   3    2      10  first good
     7     2   4    3      12  good

The first good resend is 6, after 10 units.
Demand 3: one of the first 7 is good, after at most 5 + 6 = 11 units.
";

/// The fields of the table's lines, as the plan program prints them.
fn plan_lines(table: &str) -> Vec<String> {
    let resends = table
        .lines()
        .skip_while(|line| !line.starts_with("resend"))
        .take_while(|line| !line.is_empty());
    resends
        .map(|line| line.split_whitespace().take(4).collect::<Vec<_>>().join(" "))
        .collect()
}

#[test]
fn the_example_with_failed_members() {
    let run = run(&format!("{EXAMPLE} --failed-senders 1 --failed-receivers 1,0"));
    assert_eq!(run.text(), TABLE);
    assert_eq!((run.err.as_str(), run.code), ("", Some(0)));
}

#[test]
fn without_failed_members_the_first_resend_is_good() {
    let run = run(EXAMPLE);
    assert!(run.text().contains("     1     0   0    3       0  first good\n"));
    assert!(run.text().contains("The first good resend is 1, after 0 units.\n"));
}

#[test]
fn more_failures_than_u_promise_nothing() {
    let run = run(&format!("{EXAMPLE} --failed-senders 0,1,2"));
    assert!(run.text().contains("None of the 7 resends is good.\n"));
    let words = "Demand 3 promises nothing here: the failed sending members have share 3, above u = 1.\n";
    assert!(run.text().ends_with(words));
    assert_eq!(run.code, Some(0));
}

#[test]
fn a_failed_first_copy_is_marked() {
    let run = run(&format!("{EXAMPLE} --failed-receivers 2"));
    assert!(run
        .text()
        .contains("     0     2   2    0       -  first copy, receiver failed\n"));
}

#[test]
fn short_names_and_repeated_shares_say_the_same() {
    let short = "plan --sending 1x3 --su 1 --sr 0 --receiving 1,1x3,1 --ru 2 --rr 0 --quantum 3 --message 3";
    assert_eq!(run(short).text(), run(EXAMPLE).text());
}

#[test]
fn the_records_are_the_plan_programs_input() {
    let stored = concat!(env!("CARGO_MANIFEST_DIR"), "/../../../crates/plan/stdin");
    let run = run(&format!("{EXAMPLE} --records"));
    assert_eq!(run.out, fs::read(stored).unwrap());
    assert_eq!((run.err.as_str(), run.code), ("", Some(0)));
}

#[test]
fn the_plan_program_prints_the_same_lines_for_the_records() {
    let uneven =
        "plan --sending 3,1,4,1,5 --su 4 --sr 3 --receiving 9,2,6x4 --ru 11 --rr 5 --quantum 17 --message 1234567";
    for arguments in [EXAMPLE, uneven] {
        let records = run(&format!("{arguments} --records")).out;
        let text = String::from_utf8(havdorlek::plan(&records)).unwrap();
        assert_eq!(plan_lines(run(arguments).text()), text.lines().collect::<Vec<_>>());
    }
}

#[test]
fn help() {
    let help = run("--help");
    assert!(help.text().starts_with("havdorlek: "));
    assert_eq!(help.code, Some(0));
    assert_eq!(run("plan --sending 1 --help").out, help.out);
}
