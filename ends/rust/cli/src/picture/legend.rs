//! What the picture says in words: its title, its middle, and what the colours mean.

use super::geometry::MIDDLE;
use super::writing::{swatch, text, upright};
use crate::asked::{Asked, Side};
use crate::plan::Plan;
use crate::promise::{beyond, units, Promise};

/// The letters of a line that fit the middle of the circle.
const LONGEST: usize = 36;

/// The title, and the two clusters under it.
pub fn title(asked: &Asked) -> String {
    let cluster = |side: &Side| format!("{}: {}", side.name, side.described());
    let under = format!("{} · {}", cluster(&asked.sending), cluster(&asked.receiving));
    let title = format!("Message {}, quantum {}", asked.message, asked.quantum);
    text("title", (MIDDLE.0, 34.0), &title) + &text("under", (MIDDLE.0, 58.0), &under)
}

/// What the plan comes to, in the middle of the circle.
pub fn middle(asked: &Asked, plan: &Plan) -> String {
    let (good, after) = match plan.first_good() {
        Some(step) => (
            format!("resend {}: {} → {}", step.number, step.sender, step.receiver),
            format!("after {}", units(step.before)),
        ),
        None => ("none is good".to_string(), format!("of {} resends", plan.resends.len())),
    };
    let lines = [
        (
            "said",
            format!("first copy: {} → {}", plan.first.sender, plan.first.receiver),
        ),
        ("said", "first good one:".to_string()),
        ("large", good),
        ("said", after),
        ("said", bound(asked)),
        ("under", format!("circle of {}", units(Promise::of(asked).units))),
    ];
    let downs = [-62.0, -32.0, -8.0, 16.0, 40.0, 66.0];
    let line = |((class, words), down): ((&str, String), f64)| text(class, (MIDDLE.0, MIDDLE.1 + down), &words);
    lines.into_iter().zip(downs).map(line).collect()
}

/// The bound in words that fit the middle of the circle: large sums without their parts.
fn bound(asked: &Asked) -> String {
    if let Some(side) = beyond(asked) {
        return format!("no bound: {} failures above u", side.name);
    }
    let promise = Promise::of(asked);
    let parts = format!(
        "bound {} + {} = {}",
        promise.sending,
        promise.receiving,
        promise.bound()
    );
    if parts.len() <= LONGEST {
        parts
    } else {
        format!("bound {}", promise.bound())
    }
}

/// What the colours mean: a class of box and its words, column by column.
const MEANINGS: [&[(&str, &str)]; 3] = [
    &[
        ("sending-odd", "sending member (inside)"),
        ("receiving-odd", "receiving member (outside)"),
        ("failed", "failed member"),
    ],
    &[
        ("first-good", "first good resend"),
        ("good", "good resend"),
        ("spoilt", "resend with a failed end"),
    ],
    &[("first-copy", "ends of the first copy")],
];

/// Where the columns start, and the lines.
const COLUMNS: [f64; 3] = [40.0, 290.0, 520.0];
const LINES: [f64; 3] = [836.0, 860.0, 884.0];

/// The legend under the circle.
pub fn meanings(twice_round: bool) -> String {
    let words = |left: f64, top: f64, words: &str| text("meaning", (left + 28.0, top + 11.0), words);
    let mut svg = String::new();
    for (column, left) in MEANINGS.iter().zip(COLUMNS) {
        for ((class, meaning), top) in column.iter().zip(LINES) {
            svg += &(swatch(class, (left, top)) + &words(left, top, meaning));
        }
    }
    svg += &upright("start", (COLUMNS[2], LINES[1]));
    svg += &words(COLUMNS[2], LINES[1], "resend 1 starts, clockwise");
    if twice_round {
        svg += &words(COLUMNS[2], LINES[2], "second time round: the inner lane");
    }
    svg
}
