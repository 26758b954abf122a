//! Which open messages a verdict is due on.

use crate::layout::{column, place, COMPLAINTS, COUNTS, R, RECEIVING, SHARES, U, WORDS};
use crate::limits::{MEMBERS, RESEND};
use crate::marks::bits;

/// The offsets from p, among the open ones, on which a verdict is due: complaint share r + 1 or more, not QUACKed, count
/// below 255.
pub fn due(window: &[u64; WORDS], p: u64, members: usize, open: u64, held: &[u64; MEMBERS]) -> u64 {
    let (u, r) = (window[RECEIVING + U], window[RECEIVING + R]);
    let tables = Tables::of(&column(window, RECEIVING + SHARES)[..members]);
    let mut against = Weighed::default();
    let mut holding = Weighed::default();
    let mut due = 0;
    for o in bits(open) {
        let complaints = window[COMPLAINTS + place(p, o)];
        let lost = complaints != 0
            && window[COUNTS + place(p, o)] < u64::from(RESEND)
            && against.share(&tables, complaints) > r
            && holding.share(&tables, held[o as usize]) <= u;
        due |= u64::from(lost) << o;
    }
    due
}

/// The share of every set among each four members.
struct Tables {
    tables: [[u32; 16]; 16],
    fours: usize,
}

impl Tables {
    fn of(shares: &[u64]) -> Tables {
        let mut tables = [[0; 16]; 16];
        for (table, four) in tables.iter_mut().zip(shares.chunks(4)) {
            for (i, &share) in four.iter().enumerate() {
                let (without, with) = table.split_at_mut(1 << i);
                for (a, b) in without.iter().zip(with) {
                    *b = a + share as u32;
                }
            }
        }
        Tables {
            tables,
            fours: shares.len().div_ceil(4),
        }
    }

    /// The share of a set of members.
    fn share(&self, set: u64) -> u64 {
        let fours = self.tables[..self.fours].iter().enumerate();
        u64::from(
            fours
                .map(|(i, table)| table[(set >> (4 * i) & 15) as usize])
                .sum::<u32>(),
        )
    }
}

/// The set that was weighed last: messages sent one after another are often lost, and held, together.
#[derive(Default)]
struct Weighed {
    set: u64,
    share: u64,
}

impl Weighed {
    fn share(&mut self, tables: &Tables, set: u64) -> u64 {
        if set != self.set {
            self.set = set;
            self.share = tables.share(set);
        }
        self.share
    }
}
