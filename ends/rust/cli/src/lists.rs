//! Numbers and lists of numbers, as arguments.

use crate::mistake::Mistake;
use std::fmt::Display;
use std::str::FromStr;

/// How often a share may be repeated by `x`: more than enough for a cluster that is refused for its size.
const MOST_TIMES: usize = 1000;

/// A whole number of some width.
pub fn number<N: FromStr>(name: &str, text: &str, most: impl Display) -> Result<N, Mistake> {
    let digits = !text.is_empty() && text.bytes().all(|byte| byte.is_ascii_digit());
    let parsed = digits.then(|| text.parse().ok()).flatten();
    parsed.ok_or_else(|| {
        Mistake::Usage(format!(
            "{name}: expected a whole number from 0 to {most}, got '{text}'"
        ))
    })
}

/// Shares with commas between, each with how often it is repeated, if more than once: `1,1,1` or `25x4`.
pub fn shares(name: &str, text: &str) -> Result<Vec<u32>, Mistake> {
    let mut shares = Vec::new();
    for part in parts(text) {
        let (share, times) = part.split_once('x').unwrap_or((part, "1"));
        let times: usize = number(name, times, MOST_TIMES)?;
        if times > MOST_TIMES {
            return Err(Mistake::Usage(format!(
                "{name}: '{part}' repeats a share more than {MOST_TIMES} times"
            )));
        }
        let share: u32 = number(name, share, u32::MAX)?;
        shares.extend(vec![share; times]);
    }
    Ok(shares)
}

/// Members with commas between, each once, in order.
pub fn members(name: &str, text: &str) -> Result<Vec<u32>, Mistake> {
    let members: Result<Vec<u32>, Mistake> = parts(text).map(|part| number(name, part, u32::MAX)).collect();
    let mut members = members?;
    members.sort_unstable();
    members.dedup();
    Ok(members)
}

/// The parts between commas; none of an empty text.
fn parts(text: &str) -> impl Iterator<Item = &str> {
    text.split(',').map(str::trim).filter(move |_| !text.is_empty())
}
