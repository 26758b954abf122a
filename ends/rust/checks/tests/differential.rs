//! Long random runs: after each call the library and the reference must have left the same behind, and so must the tuned
//! implementation that the library is measured against.
//!
//! `HAVDORLEK_CALLS` says how many calls are made (1,000,000 by default) and `HAVDORLEK_SEED` from which seed. A run of
//! at least the default length must also have met every refusal of every call, every resend number and full windows.
//! Because every call carries its whole state, the one call that differs is all that is needed to see a difference
//! again: it is told as a line in the form of the conformance pack, and put into a file under `vectors/`, `cargo test`
//! runs it.

use checks::answer::{line, Answer, VERDICT_BYTES};
use checks::call::Call;
use checks::end::{run, Library, Reference, Tuned};
use checks::layout::{Words, HAS_REPORTED, POINT, REPORT_NUMBERS, SENT};
use checks::random::Random;
use checks::season::season;
use checks::singles::{drawn_windows, members, pairs, plans, records};
use checks::tally::Tally;
use std::io::Write;
use std::time::Instant;

const CALLS: u64 = 1_000_000;
const SEED: u64 = 20_250_707;
/// The calls that take a window; they are the heart of the unit, so at least three in ten must be of them.
const WINDOW_CALLS: [&str; 4] = ["open", "judge", "send", "report"];

/// What happened in the run so far.
#[derive(Default)]
struct Run {
    seed: u64,
    calls: u64,
    tally: Tally,
    /// Verdicts by their resend number, and the most that one report brought.
    verdicts: Vec<u64>,
    most_verdicts: u64,
    /// Accepted reports that moved p, that complained by a gap, and that complained by a repeat alone.
    collecting: u64,
    gaps: u64,
    repeats: u64,
    /// Accepted calls that left 64 messages open.
    full_windows: u64,
}

/// Tells the call while its end panics.
struct Telling<'a>(&'a Call);

impl Drop for Telling<'_> {
    fn drop(&mut self) {
        if std::thread::panicking() {
            eprintln!("this call was being made: {}", self.0);
        }
    }
}

impl Run {
    /// Makes a call on every end.
    fn ask(&mut self, call: Call) -> Answer {
        self.calls += 1;
        let (library, tuned, reference) = {
            let _telling = Telling(&call);
            (run(&Library, &call), run(&Tuned, &call), run(&Reference, &call))
        };
        self.hold(&call, "library", &library, &reference);
        self.hold(&call, "tuned one", &tuned, &reference);
        self.note(&call, &reference);
        reference
    }

    fn hold(&self, call: &Call, end: &str, got: &Answer, reference: &Answer) {
        if got != reference {
            let (line, got) = (line(call, reference), got.text(call));
            let place = format!("seed {}, call {}", self.seed, self.calls);
            panic!("{place}: the {end} differs.\nThe reference says\n{line}\nand the {end}\n{got}");
        }
    }

    fn note(&mut self, call: &Call, answer: &Answer) {
        self.tally.note(call, answer);
        if call.altered_window().is_some() && answer.returned == 0 {
            self.full_windows += u64::from(answer.state[SENT] - answer.state[POINT] == 64);
        }
        if let (
            Call::Report {
                window,
                member,
                number,
                mask,
                ..
            },
            0,
        ) = (call, answer.returned)
        {
            self.note_report(window, *member as usize, *number, *mask, answer);
        }
    }

    fn note_report(&mut self, before: &Words, member: usize, number: u64, mask: u64, answer: &Answer) {
        let (point, sent) = (answer.state[POINT], answer.state[SENT]);
        let again = before[HAS_REPORTED + member] == 1 && before[REPORT_NUMBERS + member] == number;
        self.collecting += u64::from(point > before[POINT]);
        // Bit 0 being clear, a report with marks lacks c + 1, which counts where it is above p.
        self.gaps += u64::from(mask != 0 && number >= point);
        self.repeats += u64::from(mask == 0 && again && number == point && number < sent);
        self.most_verdicts = self.most_verdicts.max(answer.numbers[0]);
        for verdict in answer
            .bytes
            .chunks_exact(VERDICT_BYTES)
            .take(answer.numbers[0] as usize)
        {
            self.verdicts[usize::from(verdict[10])] += 1;
        }
    }

    fn window_calls(&self) -> u64 {
        WINDOW_CALLS.iter().map(|name| self.tally.calls(name)).sum()
    }

    /// All that a run of the default length must have met.
    fn assert_met(&self) {
        assert_eq!(self.tally.missing(), Vec::<String>::new());
        assert!(
            10 * self.window_calls() >= 3 * self.calls,
            "too few calls took a window"
        );
        assert!(
            self.verdicts[1..].iter().all(|&many| many > 0),
            "some resend number from 1 to 255 had no verdict"
        );
        assert_eq!(self.most_verdicts, 64, "no report brought 64 verdicts");
        assert!(self.full_windows > 0 && self.collecting > 0 && self.gaps > 0 && self.repeats > 0);
    }
}

fn number_from_environment(name: &str, default: u64) -> u64 {
    match std::env::var(name) {
        Ok(text) => text.parse().unwrap_or_else(|_| panic!("{name} is no number: {text}")),
        Err(_) => default,
    }
}

/// Tells a line at once, past the capturing of tests, so that seed and tally are seen in every run.
fn tell(text: String) {
    writeln!(std::io::stdout(), "{text}").expect("the run can tell what it does");
}

fn tell_end(run: &Run, started: Instant) {
    let (seconds, window_calls) = (started.elapsed().as_secs_f64(), run.window_calls());
    tell(format!(
        "{} calls in {seconds:.1} s, {window_calls} of them on windows",
        run.calls
    ));
    tell(format!("how often each call gave each refusal:\n{}", run.tally));
    let (first, more): (u64, u64) = (run.verdicts[1], run.verdicts[2..].iter().sum());
    tell(format!(
        "verdicts: {first} of resend 1, {more} of later ones, {} of resend 255",
        run.verdicts[255]
    ));
    tell(format!(
        "most verdicts of one report: {}; reports that moved p: {}",
        run.most_verdicts, run.collecting
    ));
    tell(format!(
        "reports that complained by a gap: {}, by a repeat alone: {}",
        run.gaps, run.repeats
    ));
    tell(format!("calls that left 64 messages open: {}", run.full_windows));
}

#[test]
fn all_ends_answer_alike() {
    let wanted = number_from_environment("HAVDORLEK_CALLS", CALLS);
    let seed = number_from_environment("HAVDORLEK_SEED", SEED);
    tell(format!("seed {seed}, {wanted} calls"));
    let started = Instant::now();
    let random = Random::new(seed);
    let mut run = Run {
        seed,
        verdicts: vec![0; 256],
        ..Run::default()
    };
    while run.calls < wanted {
        let ask = &mut |call| run.ask(call);
        // A season makes hundreds of calls, a plan just one.
        match random.between(0, 99) {
            0..=4 => season(&random, ask),
            5..=29 => drawn_windows(&random, ask),
            30..=56 => pairs(&random, ask),
            57..=59 => members(&random, ask),
            60..=69 => records(&random, ask),
            _ => plans(&random, ask),
        }
    }
    tell_end(&run, started);
    if wanted >= CALLS {
        run.assert_met();
    }
}
