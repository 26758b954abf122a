//! Labels that do not lie on one another: where there is no room for all, some are left out.

/// A text in the middle of a spot.
pub struct Label {
    pub text: String,
    pub at: (f64, f64),
    /// Lower ones are placed first.
    pub rank: u32,
    /// Whether it is written in bold.
    pub strong: bool,
}

/// The height of a small digit and its width, with the space that labels keep between them.
const HEIGHT: f64 = 9.5;
const DIGIT: f64 = 7.0;
const SPACE: f64 = 1.5;

/// How early a number gets its label: what stands out first, then round numbers.
pub fn rank(number: u32, stands_out: bool) -> u32 {
    match number {
        _ if stands_out => 0,
        0 | 1 => 1,
        n if n % 10 == 0 => 2,
        n if n % 5 == 0 => 3,
        _ => 4,
    }
}

/// The labels that are kept, in the order of their ranks.
pub fn thinned(mut labels: Vec<Label>) -> Vec<Label> {
    labels.sort_by_key(|label| label.rank);
    let mut kept: Vec<Label> = Vec::new();
    for label in labels {
        if kept.iter().all(|other| !touch(&label, other)) {
            kept.push(label);
        }
    }
    kept
}

fn touch(a: &Label, b: &Label) -> bool {
    let width = (a.text.len() + b.text.len()) as f64 * DIGIT / 2.0 + SPACE;
    (a.at.0 - b.at.0).abs() < width && (a.at.1 - b.at.1).abs() < HEIGHT
}
