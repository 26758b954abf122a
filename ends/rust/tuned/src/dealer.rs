//! The deal: who owns a slot, and who owns the slots after it.

use crate::hamilton::fill;
use crate::limits::MEMBERS;
use crate::marks::first;

/// Deals slot after slot, and after the last one the first again.
///
/// The members that take a slot in a round stay the same until the round that equals the lowest of their counts, so whole
/// stretches of rounds are passed at once.
pub struct Dealer<'a> {
    counts: &'a [u32],
    /// The round that is being dealt.
    round: u32,
    /// The members that take a slot in this round.
    takers: u64,
    /// Those of them that have yet to take it.
    waiting: u64,
    /// The first round that has other takers.
    until: u32,
}

impl Dealer<'_> {
    /// A dealer whose next slot is this one; the counts add up to the quantum, which is above the slot.
    pub fn at(counts: &[u32], mut slot: u32) -> Dealer<'_> {
        let mut dealer = Dealer {
            counts,
            round: 0,
            takers: 0,
            waiting: 0,
            until: 0,
        };
        dealer.start(0);
        loop {
            let takers = dealer.takers.count_ones();
            let slots = (dealer.until - dealer.round) * takers;
            if slot < slots {
                dealer.round += slot / takers;
                dealer.waiting = without_lowest(dealer.takers, slot % takers);
                return dealer;
            }
            slot -= slots;
            dealer.start(dealer.until);
        }
    }

    /// Starts a round and finds out who takes a slot in it, and until when.
    fn start(&mut self, round: u32) {
        let mut takers = 0;
        let mut until = u32::MAX;
        for (i, &count) in self.counts.iter().enumerate() {
            let takes = count > round;
            takers |= u64::from(takes) << i;
            until = until.min(if takes { count } else { u32::MAX });
        }
        self.round = round;
        self.takers = takers;
        self.waiting = takers;
        self.until = until;
    }

    /// The owner of the next slot.
    pub fn deal(&mut self) -> usize {
        if self.waiting == 0 {
            self.next_round();
        }
        let owner = self.waiting.trailing_zeros() as usize;
        self.waiting &= self.waiting - 1;
        owner
    }

    fn next_round(&mut self) {
        self.round += 1;
        self.waiting = self.takers;
        if self.round == self.until {
            self.start(self.round);
        }
        if self.takers == 0 {
            self.start(0);
        }
    }
}

/// The owner of one slot in the deal of an accepted cluster with this total.
pub fn owner(shares: &[u32], total: u32, q: u32, slot: u32) -> usize {
    let mut counts = [0; MEMBERS];
    let counts = &mut counts[..shares.len()];
    fill(shares, total, q, counts);
    Dealer::at(counts, slot).deal()
}

/// The set without its n lowest members.
fn without_lowest(mut set: u64, n: u32) -> u64 {
    let lowest = first(u64::from(n));
    // Mostly all members take a slot, and then the n lowest are the first n.
    if set & lowest == lowest {
        return set & !lowest;
    }
    for _ in 0..n {
        set &= set - 1;
    }
    set
}
