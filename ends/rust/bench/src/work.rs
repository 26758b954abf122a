//! What is measured of a case: a batch of equal calls, whose states are made ready beforehand.

use crate::calls::{Calls, Words};
use std::hint::black_box;

/// How many calls a batch has. So many states lie in a processor's nearest cache.
pub const BATCH: usize = 16;

/// A batch of calls.
pub trait Work {
    /// Makes the states ready; not measured.
    fn prepare(&mut self);

    /// Makes the calls; measured. Gives the last one's answer, as a number that both sides must agree on.
    fn run(&mut self) -> u64;

    /// Makes one call.
    fn once(&mut self) -> u64;
}

/// One side's batch of a case.
pub type Make = Box<dyn Fn(&'static Calls) -> Box<dyn Work> + Send + Sync>;

/// A call that changes nothing that the next one reads.
struct Repeated<F>(F);

impl<F: FnMut() -> u64> Work for Repeated<F> {
    fn prepare(&mut self) {}

    fn run(&mut self) -> u64 {
        let mut answer = 0;
        for _ in 0..BATCH {
            answer = black_box((self.0)());
        }
        answer
    }

    fn once(&mut self) -> u64 {
        (self.0)()
    }
}

/// A batch of equal calls that change no state.
pub fn repeated(call: impl FnMut() -> u64 + 'static) -> Box<dyn Work> {
    Box::new(Repeated(call))
}

/// A call that changes a state: each call of the batch has a copy of its own.
struct OnCopies<S, F> {
    state: S,
    copies: Vec<S>,
    call: F,
}

impl<S: Copy, F: FnMut(&mut S) -> u64> Work for OnCopies<S, F> {
    fn prepare(&mut self) {
        self.copies.fill(self.state);
    }

    fn run(&mut self) -> u64 {
        let mut answer = 0;
        for copy in &mut self.copies {
            answer = black_box((self.call)(copy));
        }
        answer
    }

    fn once(&mut self) -> u64 {
        (self.call)(&mut self.copies[0])
    }
}

/// A batch of equal calls on copies of a window's state.
pub fn on_windows(state: Words, call: impl FnMut(&mut Words) -> u64 + 'static) -> Box<dyn Work> {
    on_copies(state, call)
}

/// A batch of equal calls on copies of a member's holdings.
pub fn on_holdings(state: [u64; 2], call: impl FnMut(&mut [u64; 2]) -> u64 + 'static) -> Box<dyn Work> {
    on_copies(state, call)
}

fn on_copies<S: Copy + 'static>(state: S, call: impl FnMut(&mut S) -> u64 + 'static) -> Box<dyn Work> {
    let copies = vec![state; BATCH];
    Box::new(OnCopies { state, copies, call })
}
