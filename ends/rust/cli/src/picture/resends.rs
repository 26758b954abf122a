//! The resends, between the rings: an arc for each, in a lane for each time round the circle.

use super::geometry::{point, ring_part, spoke};
use super::labels::{rank, thinned, Label};
use super::rings::stretch_ends;
use super::writing::{labels, path};
use crate::asked::Asked;
use crate::plan::{Plan, Step};
use crate::promise::Promise;

/// The lanes' radii, the first time round outside. The resends up to demand 3's number go round less than twice.
const LANES: [(f64, f64); 2] = [(256.0, 284.0), (224.0, 252.0)];

/// Every arc, where the first starts, and the resend numbers.
pub fn draw(asked: &Asked, plan: &Plan) -> String {
    let start = stretch_ends(&asked.sending)[plan.first.sender as usize + 1];
    let units = Promise::of(asked).units;
    let good = plan.first_good().map(|step| step.number);
    let mut svg = String::new();
    let mut numbers = Vec::new();
    for step in &plan.resends {
        let (lane, from) = (step.before / units, (step.before % units) as f64 / units as f64);
        let (inner, outer) = LANES[lane as usize];
        let (from, to) = (start + from, start + from + step.run as f64 / units as f64);
        svg += &path(class(step, good), &ring_part(inner, outer, from, to));
        numbers.push(Label {
            text: step.number.to_string(),
            at: point((from + to) / 2.0, (inner + outer) / 2.0),
            rank: rank(step.number, good == Some(step.number)),
            strong: good == Some(step.number),
        });
    }
    svg += &path("start", &spoke(start, LANES[1].0 - 4.0, LANES[0].1 + 4.0));
    svg + &labels("resend", &thinned(numbers))
}

/// Whether the resends go on past once round the circle.
pub fn go_twice_round(asked: &Asked, plan: &Plan) -> bool {
    plan.resends
        .last()
        .is_some_and(|step| step.before >= Promise::of(asked).units)
}

fn class(step: &Step, first_good: Option<u32>) -> &'static str {
    match step.is_good() {
        true if first_good == Some(step.number) => "first-good",
        true => "good",
        false => "spoilt",
    }
}
