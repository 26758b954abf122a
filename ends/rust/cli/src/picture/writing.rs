//! Pieces of SVG.

use super::geometry::short;
use super::labels::Label;

/// The most labels of a class that are written larger.
const ROOMY: usize = 16;

/// A path of a class.
pub fn path(class: &str, d: &str) -> String {
    format!("<path class=\"{class}\" d=\"{d}\"/>\n")
}

/// A line of text from a point on, or around it where its class is anchored in the middle.
pub fn text(class: &str, (x, y): (f64, f64), words: &str) -> String {
    format!(
        "<text class=\"{class}\" x=\"{}\" y=\"{}\">{words}</text>\n",
        short(x),
        short(y)
    )
}

/// Labels of a class: larger where they are few, and the strong ones in bold.
pub fn labels(class: &str, labels: &[Label]) -> String {
    let roomy = if labels.len() <= ROOMY { " roomy" } else { "" };
    let write = |label: &Label| {
        let strong = if label.strong { " strong" } else { "" };
        // A digit's middle lies this much above the line that it stands on.
        let below = if roomy.is_empty() { 4.0 } else { 5.5 };
        text(
            &format!("{class}{roomy}{strong}"),
            (label.at.0, label.at.1 + below),
            &label.text,
        )
    };
    labels.iter().map(write).collect()
}

/// A small box of a class, for the legend.
pub fn swatch(class: &str, (x, y): (f64, f64)) -> String {
    let (x, y) = (short(x), short(y));
    format!("<rect class=\"{class}\" x=\"{x}\" y=\"{y}\" width=\"18\" height=\"12\"/>\n")
}

/// A small upright line of a class, for the legend.
pub fn upright(class: &str, (x, y): (f64, f64)) -> String {
    path(class, &format!("M{} {} v14", short(x + 9.0), short(y - 1.0)))
}
