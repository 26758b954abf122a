//! How many bytes of stack a call uses.
//!
//! On a thread of its own, the unused stack below the current frame is painted with a pattern, the call is made, and the
//! lowest byte that was painted over tells how deep it went. A frame's bytes that are never written are not seen.

use std::hint::black_box;
use std::ptr::{with_exposed_provenance, with_exposed_provenance_mut};
use std::thread;

/// The bytes that are painted.
const PAINTED: usize = 512 * 1024;

/// The thread's stack: what is painted, and enough above it.
const STACK: usize = 4 * PAINTED;

/// The bytes between the painter's frame and the paint, which the painter's own calls may use.
const GAP: usize = 4096;

/// An unlikely word.
const PATTERN: u64 = 0xA5C3_965A_3C69_E178;

/// The stack that a call uses, in bytes, beyond that of a call that does nothing. `make` makes the call on the thread where
/// it is measured.
pub fn stack_of<C: FnMut()>(make: impl FnOnce() -> C + Send) -> usize {
    thread::scope(|scope| {
        let measure = || {
            let mut call = make();
            // What is done once only, as finding a function's address, is not the call's.
            call();
            lowest(&mut || ()).saturating_sub(lowest(&mut call))
        };
        let thread = thread::Builder::new().stack_size(STACK).spawn_scoped(scope, measure);
        thread.expect("a thread starts").join().expect("the call ends")
    })
}

/// The lowest address that a call writes.
#[inline(never)]
fn lowest(call: &mut dyn FnMut()) -> usize {
    let top = (below_here() - GAP) & !7;
    let bottom = top - PAINTED;
    paint(bottom, top);
    past_the_gap(call);
    first_changed(bottom, top)
}

/// An address in a frame right below the caller's.
#[inline(never)]
fn below_here() -> usize {
    let local = 0u8;
    black_box(&raw const local).addr()
}

/// Makes the call with its frames well inside the paint.
#[inline(never)]
fn past_the_gap(call: &mut dyn FnMut()) {
    let mut pad = [0u8; 2 * GAP];
    black_box(&mut pad);
    call();
    black_box(&mut pad);
}

#[inline(never)]
fn paint(bottom: usize, top: usize) {
    for address in (bottom..top).step_by(8) {
        // SAFETY: this is mapped stack of the current thread, GAP below the frame of `lowest` and so below this one too:
        // no frame that is in use lies there, and nothing else reads it but `first_changed`.
        unsafe { with_exposed_provenance_mut::<u64>(address).write_volatile(PATTERN) }
    }
}

#[inline(never)]
fn first_changed(bottom: usize, top: usize) -> usize {
    let painted = |&address: &usize| {
        // SAFETY: as for the painting; every word there has been written, by the painter or by the call since.
        unsafe { with_exposed_provenance::<u64>(address).read_volatile() == PATTERN }
    };
    (bottom..top)
        .step_by(8)
        .find(|address| !painted(address))
        .unwrap_or(top)
}
