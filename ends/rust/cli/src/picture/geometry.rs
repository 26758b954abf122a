//! Points and paths on the circle. A turn goes from 0 at the top clockwise to 1.

use std::f64::consts::TAU;

/// The middle of the circle.
pub const MIDDLE: (f64, f64) = (400.0, 446.0);

/// The point at a turn and a distance from the middle.
pub fn point(turn: f64, radius: f64) -> (f64, f64) {
    let angle = turn * TAU;
    (MIDDLE.0 + radius * angle.sin(), MIDDLE.1 - radius * angle.cos())
}

/// A number as the picture writes it: two decimals, and no minus before a zero.
pub fn short(number: f64) -> String {
    let rounded = (number * 100.0).round() / 100.0;
    format!("{:.2}", rounded + 0.0)
}

fn pair((x, y): (f64, f64)) -> String {
    format!("{} {}", short(x), short(y))
}

/// The part of a ring between two radii, from one turn to a later one: at most once round.
pub fn ring_part(inner: f64, outer: f64, from: f64, to: f64) -> String {
    // An arc has no length where it ends as it starts, so each is drawn in two halves.
    let half = (from + to) / 2.0;
    let arc =
        |radius: f64, sweep: u8, end: f64| format!("A{0} {0} 0 0 {sweep} {1}", short(radius), pair(point(end, radius)));
    format!(
        "M{} {} {} L{} {} {} Z",
        pair(point(from, outer)),
        arc(outer, 1, half),
        arc(outer, 1, to),
        pair(point(to, inner)),
        arc(inner, 0, half),
        arc(inner, 0, from)
    )
}

/// A straight line outwards.
pub fn spoke(turn: f64, inner: f64, outer: f64) -> String {
    format!("M{} L{}", pair(point(turn, inner)), pair(point(turn, outer)))
}
