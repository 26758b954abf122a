//! The circle of resends.
//!
//! Owners are found on a circle of D times D' units, where a member's stretch is its share times the other total: no
//! divisor is needed until a run is asked for in units of L, and then every length is divided by the divisor of the totals.

use crate::cluster::Totals;
use crate::limits::MEMBERS;

/// The stretch ends of both layouts, and no end past the last member: what lies there is never reached.
pub struct Circle {
    senders: [u64; MEMBERS],
    receivers: [u64; MEMBERS],
    units: u64,
}

/// Where a resend starts: the owners of its first unit, and that unit.
#[derive(Clone, Copy)]
pub struct Spot {
    /// The sending member.
    pub sender: usize,
    /// The receiving member.
    pub receiver: usize,
    unit: u64,
}

impl Spot {
    /// Whether this is the first unit of all.
    pub fn is_origin(self) -> bool {
        self.unit == 0
    }
}

impl Circle {
    /// The circle of two accepted clusters.
    pub fn of(ss: &[u32], rs: &[u32], totals: &Totals) -> Circle {
        Circle {
            senders: ends(ss, totals.receiving),
            receivers: ends(rs, totals.sending),
            units: u64::from(totals.sending) * u64::from(totals.receiving),
        }
    }

    /// The first unit of all.
    pub fn origin() -> Spot {
        Spot {
            sender: 0,
            receiver: 0,
            unit: 0,
        }
    }

    /// Where the stretch of a sender ends, and so where resend 1 starts.
    pub fn after(&self, sender: usize) -> Spot {
        let unit = self.senders[sender];
        if unit == self.units {
            return Circle::origin();
        }
        Spot {
            sender: sender + 1,
            receiver: self.receivers.iter().filter(|&&end| end <= unit).count(),
            unit,
        }
    }

    /// The unit where a resend's run ends.
    fn end(&self, at: Spot) -> u64 {
        self.senders[at.sender].min(self.receivers[at.receiver])
    }

    /// The run of a resend, in units of this circle.
    pub fn run(&self, at: Spot) -> u64 {
        self.end(at) - at.unit
    }

    /// Where the next resend starts.
    pub fn next(&self, at: Spot) -> Spot {
        let (sender, receiver) = (self.senders[at.sender], self.receivers[at.receiver]);
        let unit = sender.min(receiver);
        if unit == self.units {
            return Circle::origin();
        }
        Spot {
            sender: at.sender + usize::from(sender == unit),
            receiver: at.receiver + usize::from(receiver == unit),
            unit,
        }
    }

    /// Where resend n starts, the first copy's sender being known. What is past once round the circle is not walked again.
    pub fn resend(&self, sender: usize, n: u32) -> Spot {
        let start = self.after(sender);
        let mut at = start;
        let mut left = n - 1;
        let mut walked = 0;
        while left > 0 {
            at = self.next(at);
            left -= 1;
            walked += 1;
            if at.unit == start.unit {
                left %= walked;
            }
        }
        at
    }
}

/// Where each member's stretch ends.
fn ends(shares: &[u32], scale: u32) -> [u64; MEMBERS] {
    let mut ends = [u64::MAX; MEMBERS];
    let mut total = 0;
    for (end, &share) in ends.iter_mut().zip(shares) {
        total += u64::from(share) * u64::from(scale);
        *end = total;
    }
    ends
}

/// The greatest common divisor of two totals, by halving and taking away.
pub fn divisor(totals: &Totals) -> u64 {
    let (mut a, mut b) = (totals.sending, totals.receiving);
    let twos = (a | b).trailing_zeros();
    a >>= a.trailing_zeros();
    while b != 0 {
        b >>= b.trailing_zeros();
        (a, b) = (a.min(b), a.abs_diff(b));
    }
    u64::from(a << twos)
}
