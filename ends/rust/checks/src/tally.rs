//! Which refusals each call can give, and how often each was given.

use crate::answer::Answer;
use crate::call::{Call, NAMES};
use std::collections::BTreeMap;
use std::fmt::{Display, Formatter, Result as Shown};

/// The numbers that a call can answer with: 0, and its refusals in the document's order.
fn possible_refusals(name: &str) -> &'static [u64] {
    match name {
        "counts" => &[0, 1, 2, 3, 4, 5],
        "first_pair" => &[0, 1, 2, 3, 4, 6],
        "resend_pair" => &[0, 1, 2, 3, 4, 6, 7],
        "open" => &[0, 1, 2, 3, 4],
        "judge" | "receiver_report" => &[0, 17],
        "send" => &[0, 17, 6, 10, 9],
        "report" => &[0, 17, 5, 8, 12, 11, 13],
        "fresh" => &[0],
        "arrive" => &[0, 17, 6, 18],
        "read" => &[0, 16, 14, 15],
        "write" => &[0, 14, 15, 5],
        "plan" => &[0, 19, 1, 2, 3, 4, 6],
        _ => &[],
    }
}

/// How often each call gave each refusal.
#[derive(Default)]
pub struct Tally {
    times: BTreeMap<(&'static str, u64), u64>,
}

impl Tally {
    pub fn note(&mut self, call: &Call, answer: &Answer) {
        *self.times.entry((call.name(), answer.refusal(call))).or_default() += 1;
    }

    /// How often the call was made.
    pub fn calls(&self, name: &str) -> u64 {
        self.times
            .iter()
            .filter(|((noted, _), _)| *noted == name)
            .map(|(_, times)| times)
            .sum()
    }

    /// The calls with a number that they can answer with and never did.
    pub fn missing(&self) -> Vec<String> {
        let pairs = NAMES
            .iter()
            .flat_map(|&name| possible_refusals(name).iter().map(move |&number| (name, number)));
        let missing = pairs.filter(|pair| !self.times.contains_key(pair));
        missing
            .map(|(name, number)| format!("{name} never answered {number}"))
            .collect()
    }
}

impl Display for Tally {
    fn fmt(&self, to: &mut Formatter) -> Shown {
        for name in NAMES {
            write!(to, "{name:>15} {:>8}:", self.calls(name))?;
            for ((_, number), times) in self.times.iter().filter(|((noted, _), _)| *noted == name) {
                write!(to, "  {number}: {times}")?;
            }
            writeln!(to)?;
        }
        Ok(())
    }
}
