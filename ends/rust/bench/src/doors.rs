//! The tuned calls with the archive's signatures, so that both sides are entered in the same way.
//!
//! The tuned functions are inlined here: a door is no step of its own.

use crate::calls::Words;
use havdorlek::raw::PLAN_BYTES;
use std::slice::{from_raw_parts, from_raw_parts_mut};

// SAFETY, of every function below: the caller lends what the archive's header asks for: a pointer and its length, or a
// pointer to as many places as the call of that name writes or reads.

pub unsafe extern "C" fn counts(s: *const u32, n: usize, u: u32, r: u32, q: u32, out: *mut u32, places: usize) -> u32 {
    tuned::counts(from_raw_parts(s, n), u, r, q, from_raw_parts_mut(out, places))
}

pub unsafe extern "C" fn first_pair(
    s: *const u32,
    sn: usize,
    su: u32,
    sr: u32,
    r: *const u32,
    rn: usize,
    ru: u32,
    rr: u32,
    q: u32,
    k: u64,
    answer: *mut u64,
) -> u32 {
    let (ss, rs) = (from_raw_parts(s, sn), from_raw_parts(r, rn));
    tuned::first_pair(ss, su, sr, rs, ru, rr, q, k, &mut *answer.cast())
}

pub unsafe extern "C" fn resend_pair(
    s: *const u32,
    sn: usize,
    su: u32,
    sr: u32,
    r: *const u32,
    rn: usize,
    ru: u32,
    rr: u32,
    q: u32,
    k: u64,
    n: u32,
    answer: *mut u64,
) -> u32 {
    let (ss, rs) = (from_raw_parts(s, sn), from_raw_parts(r, rn));
    tuned::resend_pair(ss, su, sr, rs, ru, rr, q, k, n, &mut *answer.cast())
}

pub unsafe extern "C" fn open(
    s: *const u32,
    sn: usize,
    su: u32,
    sr: u32,
    r: *const u32,
    rn: usize,
    ru: u32,
    rr: u32,
    q: u32,
    window: *mut u64,
) -> u32 {
    let (ss, rs) = (from_raw_parts(s, sn), from_raw_parts(r, rn));
    tuned::open(ss, su, sr, rs, ru, rr, q, &mut *window.cast::<Words>())
}

pub unsafe extern "C" fn judge(window: *const u64) -> u32 {
    tuned::judge(&*window.cast())
}

pub unsafe extern "C" fn send(window: *mut u64, k: u64) -> u32 {
    tuned::send(&mut *window.cast(), k)
}

pub unsafe extern "C" fn report(
    window: *mut u64,
    member: u32,
    number: u64,
    mask: u64,
    out: *mut u8,
    room: usize,
    answer: *mut u64,
) -> u32 {
    let out = from_raw_parts_mut(out, room);
    tuned::report(&mut *window.cast(), member, number, mask, out, &mut *answer.cast())
}

pub unsafe extern "C" fn fresh(holdings: *mut u64) {
    tuned::fresh(&mut *holdings.cast());
}

pub unsafe extern "C" fn arrive(holdings: *mut u64, k: u64) -> u32 {
    tuned::arrive(&mut *holdings.cast(), k)
}

pub unsafe extern "C" fn receiver_report(holdings: *const u64, answer: *mut u64) -> u32 {
    tuned::receiver_report(&*holdings.cast(), &mut *answer.cast())
}

pub unsafe extern "C" fn read(bytes: *const u8, length: usize, answer: *mut u64) -> u32 {
    tuned::read(from_raw_parts(bytes, length), &mut *answer.cast())
}

pub unsafe extern "C" fn write(kind: u8, member: u8, number: u64, mask: u64, out: *mut u8, room: usize) -> u32 {
    tuned::write(kind, member, number, mask, from_raw_parts_mut(out, room))
}

pub unsafe extern "C" fn plan(input: *const u8, length: usize, out: *mut u8) -> usize {
    tuned::plan(from_raw_parts(input, length), &mut *out.cast::<[u8; PLAN_BYTES]>())
}
