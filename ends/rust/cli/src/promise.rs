//! Demand 3: how many units may be spent before the first good resend.

use crate::asked::{Asked, Side};

/// The circle and the bound of two accepted clusters.
pub struct Promise {
    /// L, the least common multiple of both totals.
    pub units: u64,
    /// u times the scale factor of the sending cluster.
    pub sending: u64,
    /// u times the scale factor of the receiving cluster.
    pub receiving: u64,
}

impl Promise {
    /// The bound for what is asked.
    pub fn of(asked: &Asked) -> Promise {
        let (sending, receiving) = (asked.sending.total(), asked.receiving.total());
        let units = sending / divisor(sending, receiving) * receiving;
        Promise {
            units,
            sending: u64::from(asked.sending.u) * (units / sending),
            receiving: u64::from(asked.receiving.u) * (units / receiving),
        }
    }

    /// The bound.
    pub fn bound(&self) -> u64 {
        self.sending + self.receiving
    }
}

/// A number of units, in words.
pub fn units(number: u64) -> String {
    format!("{number} unit{}", if number == 1 { "" } else { "s" })
}

/// Euclid's rule.
fn divisor(a: u64, b: u64) -> u64 {
    if b == 0 {
        a
    } else {
        divisor(b, a % b)
    }
}

/// The cluster whose failed share is above its u, if one is: then demand 3 promises nothing.
pub fn beyond(asked: &Asked) -> Option<&Side> {
    [&asked.sending, &asked.receiving]
        .into_iter()
        .find(|side| side.failed_share() > u64::from(side.u))
}
