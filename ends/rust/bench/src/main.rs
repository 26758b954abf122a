//! Prints a table of the proved calls beside the hand-tuned ones, in Markdown: time and stack. With the name of a call as its
//! argument, the lines of that call alone.

mod calls;
mod cases;
mod doors;
mod pure_cases;
mod stack;
mod states;
mod timing;
mod window_cases;
mod work;

use calls::{Calls, OURS, TUNED};
use cases::{cases, Case};

const HEAD: &str = "\
The proved calls (`ours`) beside hand-tuned ones (`tuned`), measured in turns in one run: batches of equal calls, median of
the rounds' ratios and median nanoseconds for a call. Both sides are called through a pointer. States that a call changes
are copied before the clock starts: copying is not in the numbers. `full` is a window with 64 open messages. Stack: bytes
written below the caller, by painting.

| call | members | on | ours / tuned | ours, ns | tuned, ns | ours, stack | tuned, stack |
|---|--:|---|--:|--:|--:|--:|--:|";

fn main() {
    let asked = std::env::args().nth(1);
    println!("{HEAD}");
    for case in cases() {
        if asked.as_deref().is_none_or(|call| call == case.call) {
            print_line(&case);
        }
    }
}

fn print_line(case: &Case) {
    let mut ours = (case.make)(&OURS);
    let mut tuned = (case.make)(&TUNED);
    assert_eq!(
        ours.once(),
        tuned.once(),
        "{} {}: both sides answer the same",
        case.call,
        case.on
    );
    let times = timing::side_by_side(ours.as_mut(), tuned.as_mut());
    let members = case.members.map_or(String::new(), |members| members.to_string());
    let stacks = [stack(case, &OURS), stack(case, &TUNED)];
    println!(
        "| {} | {} | {} | {:.2} | {:.1} | {:.1} | {} | {} |",
        case.call, members, case.on, times.ratio, times.ours, times.tuned, stacks[0], stacks[1]
    );
}

/// The bytes of stack that one call of a side uses.
fn stack(case: &Case, calls: &'static Calls) -> usize {
    stack::stack_of(|| {
        let mut work = (case.make)(calls);
        move || {
            work.prepare();
            work.once();
        }
    })
}

#[cfg(test)]
mod tests {
    use super::*;

    #[test]
    fn both_sides_answer_the_same() {
        for case in cases() {
            let answer = |calls| (case.make)(calls).once();
            assert_eq!(answer(&OURS), answer(&TUNED), "{} {}", case.call, case.on);
        }
    }

    #[test]
    fn reports_give_the_verdicts_that_their_cases_name() {
        for case in cases().iter().filter(|case| case.call == "report") {
            let verdicts = if case.on.contains("64 verdicts") { 64 } else { 0 };
            assert_eq!((case.make)(&TUNED).once(), verdicts, "{}", case.on);
        }
    }

    #[test]
    fn a_larger_frame_uses_more_stack() {
        let large = || {
            std::hint::black_box([1u8; 20_000]);
        };
        let used = stack::stack_of(|| large);
        assert!((20_000..100_000).contains(&used), "{used}");
    }
}
