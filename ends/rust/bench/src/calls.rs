//! The two sides: the same calls, proved and tuned, through doors of the same shape.
//!
//! A side is a table of functions as `ends/c/havdorlek.h` declares them. Each call goes through one pointer to the function
//! itself, on both sides: neither is inlined into the loop, and neither is a step further away than the other.

use crate::doors;
use havdorlek::{raw, sys};

/// A window's state.
pub type Words = [u64; raw::WINDOW_WORDS];

type Counts = unsafe extern "C" fn(*const u32, usize, u32, u32, u32, *mut u32, usize) -> u32;
type FirstPair =
    unsafe extern "C" fn(*const u32, usize, u32, u32, *const u32, usize, u32, u32, u32, u64, *mut u64) -> u32;
type ResendPair =
    unsafe extern "C" fn(*const u32, usize, u32, u32, *const u32, usize, u32, u32, u32, u64, u32, *mut u64) -> u32;
type Open = unsafe extern "C" fn(*const u32, usize, u32, u32, *const u32, usize, u32, u32, u32, *mut u64) -> u32;

/// Every function of one side.
pub struct Calls {
    counts: Counts,
    first_pair: FirstPair,
    resend_pair: ResendPair,
    open: Open,
    judge: unsafe extern "C" fn(*const u64) -> u32,
    send: unsafe extern "C" fn(*mut u64, u64) -> u32,
    report: unsafe extern "C" fn(*mut u64, u32, u64, u64, *mut u8, usize, *mut u64) -> u32,
    fresh: unsafe extern "C" fn(*mut u64),
    arrive: unsafe extern "C" fn(*mut u64, u64) -> u32,
    receiver_report: unsafe extern "C" fn(*const u64, *mut u64) -> u32,
    read: unsafe extern "C" fn(*const u8, usize, *mut u64) -> u32,
    write: unsafe extern "C" fn(u8, u8, u64, u64, *mut u8, usize) -> u32,
    plan: unsafe extern "C" fn(*const u8, usize, *mut u8) -> usize,
}

/// The proved calls.
pub static OURS: Calls = Calls {
    counts: sys::havdorlek_counts,
    first_pair: sys::havdorlek_first_pair,
    resend_pair: sys::havdorlek_resend_pair,
    open: sys::havdorlek_open,
    judge: sys::havdorlek_judge,
    send: sys::havdorlek_send,
    report: sys::havdorlek_report,
    fresh: sys::havdorlek_fresh,
    arrive: sys::havdorlek_arrive,
    receiver_report: sys::havdorlek_receiver_report,
    read: sys::havdorlek_read,
    write: sys::havdorlek_write,
    plan: sys::havdorlek_plan,
};

/// The tuned calls.
pub static TUNED: Calls = Calls {
    counts: doors::counts,
    first_pair: doors::first_pair,
    resend_pair: doors::resend_pair,
    open: doors::open,
    judge: doors::judge,
    send: doors::send,
    report: doors::report,
    fresh: doors::fresh,
    arrive: doors::arrive,
    receiver_report: doors::receiver_report,
    read: doors::read,
    write: doors::write,
    plan: doors::plan,
};

// SAFETY, of every call below: what is lent is a slice or an array with its own length, and is lent for the call.
#[allow(clippy::too_many_arguments)]
impl Calls {
    #[inline(always)]
    pub fn counts(&self, shares: &[u32], u: u32, r: u32, q: u32, out: &mut [u32]) -> u32 {
        unsafe { (self.counts)(shares.as_ptr(), shares.len(), u, r, q, out.as_mut_ptr(), out.len()) }
    }

    #[inline(always)]
    pub fn first_pair(
        &self,
        ss: &[u32],
        su: u32,
        sr: u32,
        rs: &[u32],
        ru: u32,
        rr: u32,
        q: u32,
        k: u64,
        answer: &mut [u64; 2],
    ) -> u32 {
        let (s, sn, r, rn) = (ss.as_ptr(), ss.len(), rs.as_ptr(), rs.len());
        unsafe { (self.first_pair)(s, sn, su, sr, r, rn, ru, rr, q, k, answer.as_mut_ptr()) }
    }

    #[inline(always)]
    pub fn resend_pair(
        &self,
        ss: &[u32],
        su: u32,
        sr: u32,
        rs: &[u32],
        ru: u32,
        rr: u32,
        q: u32,
        k: u64,
        n: u32,
        answer: &mut [u64; 3],
    ) -> u32 {
        let (s, sn, r, rn) = (ss.as_ptr(), ss.len(), rs.as_ptr(), rs.len());
        unsafe { (self.resend_pair)(s, sn, su, sr, r, rn, ru, rr, q, k, n, answer.as_mut_ptr()) }
    }

    #[inline(always)]
    pub fn open(&self, ss: &[u32], su: u32, sr: u32, rs: &[u32], ru: u32, rr: u32, q: u32, window: &mut Words) -> u32 {
        let (s, sn, r, rn) = (ss.as_ptr(), ss.len(), rs.as_ptr(), rs.len());
        unsafe { (self.open)(s, sn, su, sr, r, rn, ru, rr, q, window.as_mut_ptr()) }
    }

    #[inline(always)]
    pub fn judge(&self, window: &Words) -> u32 {
        unsafe { (self.judge)(window.as_ptr()) }
    }

    #[inline(always)]
    pub fn send(&self, window: &mut Words, k: u64) -> u32 {
        unsafe { (self.send)(window.as_mut_ptr(), k) }
    }

    #[inline(always)]
    pub fn report(
        &self,
        window: &mut Words,
        member: u32,
        number: u64,
        mask: u64,
        out: &mut [u8],
        answer: &mut [u64; 1],
    ) -> u32 {
        let (bytes, room) = (out.as_mut_ptr(), out.len());
        unsafe {
            (self.report)(
                window.as_mut_ptr(),
                member,
                number,
                mask,
                bytes,
                room,
                answer.as_mut_ptr(),
            )
        }
    }

    #[inline(always)]
    pub fn fresh(&self, holdings: &mut [u64; 2]) {
        unsafe { (self.fresh)(holdings.as_mut_ptr()) }
    }

    #[inline(always)]
    pub fn arrive(&self, holdings: &mut [u64; 2], k: u64) -> u32 {
        unsafe { (self.arrive)(holdings.as_mut_ptr(), k) }
    }

    #[inline(always)]
    pub fn receiver_report(&self, holdings: &[u64; 2], answer: &mut [u64; 2]) -> u32 {
        unsafe { (self.receiver_report)(holdings.as_ptr(), answer.as_mut_ptr()) }
    }

    #[inline(always)]
    pub fn read(&self, bytes: &[u8], answer: &mut [u64; 4]) -> u32 {
        unsafe { (self.read)(bytes.as_ptr(), bytes.len(), answer.as_mut_ptr()) }
    }

    #[inline(always)]
    pub fn write(&self, kind: u8, member: u8, number: u64, mask: u64, out: &mut [u8]) -> u32 {
        unsafe { (self.write)(kind, member, number, mask, out.as_mut_ptr(), out.len()) }
    }

    #[inline(always)]
    pub fn plan(&self, input: &[u8], out: &mut [u8; raw::PLAN_BYTES]) -> usize {
        unsafe { (self.plan)(input.as_ptr(), input.len(), out.as_mut_ptr()) }
    }
}
