//! The conformance pack, read back through every end.

use checks::answer::{parse_line, Answer};
use checks::call::{Call, NAMES};
use checks::end::{run, End, Library, Reference, Tuned};
use checks::pack::{files, folder};
use checks::tally::Tally;
use checks::text::Parsed;
use std::fs::{read_dir, read_to_string};

/// A line of a file: where it stands, and what it says.
struct Line {
    place: String,
    said: Parsed<(Call, Answer)>,
}

/// Each file's name, and its lines without the comments.
fn pack() -> Vec<(String, Vec<Line>)> {
    let entries = read_dir(folder()).expect("the pack's folder can be read");
    let mut paths: Vec<_> = entries
        .map(|entry| entry.expect("the folder can be read on").path())
        .collect();
    paths.retain(|path| path.extension().is_some_and(|extension| extension == "txt"));
    paths.sort();
    let file = |path: std::path::PathBuf| {
        let name = path
            .file_name()
            .expect("a file has a name")
            .to_string_lossy()
            .into_owned();
        let text = read_to_string(&path).expect("a file of the pack can be read");
        let numbered = (1..)
            .zip(text.lines())
            .filter(|(_, line)| !line.trim().is_empty() && !line.starts_with('#'));
        let lines = numbered.map(|(at, line)| Line {
            place: format!("vectors/{name}:{at}"),
            said: parse_line(line),
        });
        (name.clone(), lines.collect())
    };
    paths.into_iter().map(file).collect()
}

/// What is to be told of a line on one end, if there is something.
fn difference(line: &Line, end_name: &str, end: &impl End) -> Option<String> {
    let place = &line.place;
    let (call, expected) = match &line.said {
        Ok(said) => said,
        Err(why) => return Some(format!("{place}: {why}")),
    };
    let got = run(end, call);
    let told = || {
        format!(
            "{place}: the {end_name}\n  expected {}\n  got      {}",
            expected.text(call),
            got.text(call)
        )
    };
    (got != *expected).then(told)
}

fn assert_answered_as_said(end_name: &str, end: &impl End) {
    let pack = pack();
    let lines = pack.iter().flat_map(|(_, lines)| lines);
    let differences: Vec<String> = lines.filter_map(|line| difference(line, end_name, end)).collect();
    assert!(
        differences.is_empty(),
        "{} lines differ:\n{}",
        differences.len(),
        differences.join("\n")
    );
}

#[test]
fn the_library_answers_as_the_lines_say() {
    assert_answered_as_said("library", &Library);
}

#[test]
fn the_reference_answers_as_the_lines_say() {
    assert_answered_as_said("reference", &Reference);
}

#[test]
fn what_the_library_is_measured_against_answers_as_the_lines_say() {
    assert_answered_as_said("tuned one", &Tuned);
}

#[test]
fn every_file_has_calls_and_every_call_a_file() {
    let pack = pack();
    for (name, lines) in &pack {
        assert!(!lines.is_empty(), "vectors/{name} has no calls");
    }
    for name in NAMES {
        assert!(
            pack.iter().any(|(file, _)| *file == format!("{name}.txt")),
            "{name}.txt is missing"
        );
    }
}

#[test]
fn every_refusal_of_every_call_is_there() {
    let mut tally = Tally::default();
    for (call, answer) in pack().iter().flat_map(|(_, lines)| lines).flat_map(|line| &line.said) {
        tally.note(call, answer);
    }
    println!("{tally}");
    assert_eq!(tally.missing(), Vec::<String>::new());
}

/// The files are what the program writes, so that nobody mends them by hand and loses it at the next writing.
#[test]
fn the_files_are_as_the_program_writes_them() {
    for (name, text) in files() {
        let file = read_to_string(folder().join(format!("{name}.txt"))).expect("a file of the pack can be read");
        assert!(
            file == text,
            "vectors/{name}.txt is not what `cargo run --release --bin vectors` writes"
        );
    }
}
