//! Writing verdicts.

use crate::circle::Circle;
use crate::cluster::Totals;
use crate::dealer::Dealer;
use crate::hamilton::fill;
use crate::layout::{column, place, COMPLAINTS, COUNTS, QUANTUM, RECEIVING, SENDING, SHARES, WORDS};
use crate::limits::{MEMBERS, REPORT_BYTES, VERDICT_BYTES};
use crate::marks::bits;

/// The resends that a circle has, in their order from unit 0, and where each sender's stretch starts among them.
struct Resends {
    ends: [(u8, u8); 2 * MEMBERS],
    starts: [u32; MEMBERS],
    round: u32,
}

/// Writes a verdict on each due message p + 1 + o, raises its count and empties its set; how many were written.
pub fn write_verdicts(window: &mut [u64; WORDS], p: u64, due: u64, out: &mut [u8; REPORT_BYTES]) -> u64 {
    if due == 0 {
        return 0;
    }
    let (ss, senders, sending) = cluster(window, SENDING);
    let (rs, receivers, receiving) = cluster(window, RECEIVING);
    let resends = Resends::between(&ss[..senders], &rs[..receivers], &Totals { sending, receiving });
    let q = window[QUANTUM];
    let lowest = u64::from(due.trailing_zeros());
    let mut counts = [0; MEMBERS];
    fill(&ss[..senders], sending, q as u32, &mut counts[..senders]);
    let mut dealer = Dealer::at(&counts[..senders], ((p + lowest) % q) as u32);
    let mut next = lowest;
    let mut sender = 0;
    for (o, verdict) in bits(due).zip(out.chunks_exact_mut(VERDICT_BYTES)) {
        while next <= o {
            sender = dealer.deal();
            next += 1;
        }
        let at = place(p, o);
        let n = window[COUNTS + at] + 1;
        window[COUNTS + at] = n;
        window[COMPLAINTS + at] = 0;
        let (from, to) = resends.resend(if sender + 1 < senders { sender + 1 } else { 0 }, n as u32);
        let ends = u64::from(from) | u64::from(to) << 8 | n << 16;
        verdict[..8].copy_from_slice(&(p + 1 + o).to_le_bytes());
        verdict[8..].copy_from_slice(&ends.to_le_bytes());
    }
    u64::from(due.count_ones())
}

/// The shares, members and total of an accepted cluster.
fn cluster(window: &[u64; WORDS], at: usize) -> ([u32; MEMBERS], usize, u32) {
    let shares = column(window, at + SHARES).map(|share| share as u32);
    (shares, window[at] as usize, shares.iter().sum())
}

impl Resends {
    fn between(ss: &[u32], rs: &[u32], totals: &Totals) -> Resends {
        let circle = Circle::of(ss, rs, totals);
        let mut resends = Resends {
            ends: [(0, 0); 2 * MEMBERS],
            starts: [0; MEMBERS],
            round: 0,
        };
        let mut at = Circle::origin();
        loop {
            resends.ends[resends.round as usize] = (at.sender as u8, at.receiver as u8);
            let next = circle.next(at);
            resends.round += 1;
            if next.is_origin() {
                return resends;
            }
            if next.sender != at.sender {
                resends.starts[next.sender] = resends.round;
            }
            at = next;
        }
    }

    /// The ends of resend n, the first of which starts with this sender's stretch.
    fn resend(&self, sender: usize, n: u32) -> (u8, u8) {
        self.ends[((self.starts[sender] + n - 1) % self.round) as usize]
    }
}
