//! The ends that are held against each other, the library, the reference and what the benchmark measures with, and how a call
//! is run on one of them.

use crate::answer::Answer;
use crate::call::{Call, Cluster, Link};
use crate::layout::{Words, WORDS};
use havdorlek::raw as library;

/// What stands in each byte of a lent output, an answer array or a state to be written, before a call.
pub const FILL: u8 = 0xaa;
const FILLED_PLACE: u32 = u32::from_ne_bytes([FILL; 4]);
const FILLED_WORD: u64 = u64::from_ne_bytes([FILL; 8]);

/// The bytes that a plan's output has.
pub const PLAN_BYTES: usize = 3458;

/// An end of the link: the C header's calls, with a link's two clusters and quantum in one piece.
pub trait End {
    fn counts(&self, cluster: &Cluster, q: u32, out: &mut [u32]) -> u32;
    fn first_pair(&self, link: &Link, k: u64, answer: &mut [u64; 2]) -> u32;
    fn resend_pair(&self, link: &Link, k: u64, n: u32, answer: &mut [u64; 3]) -> u32;
    fn open(&self, link: &Link, window: &mut Words) -> u32;
    fn judge(&self, window: &Words) -> u32;
    fn send(&self, window: &mut Words, k: u64) -> u32;
    fn report(&self, window: &mut Words, report: (u32, u64, u64), out: &mut [u8], answer: &mut [u64; 1]) -> u32;
    fn fresh(&self, holdings: &mut [u64; 2]);
    fn arrive(&self, holdings: &mut [u64; 2], k: u64) -> u32;
    fn receiver_report(&self, holdings: &[u64; 2], answer: &mut [u64; 2]) -> u32;
    fn read(&self, bytes: &[u8], answer: &mut [u64; 4]) -> u32;
    fn write(&self, fields: (u8, u8, u64, u64), out: &mut [u8]) -> u32;
    fn plan(&self, input: &[u8], out: &mut [u8; PLAN_BYTES]) -> usize;
}

/// The proved library.
pub struct Library;

/// The independent twin.
pub struct Reference;

/// What the library is measured against, which is worth nothing as a measure where it answers otherwise.
pub struct Tuned;

/// Makes a struct an end that passes each call on to the function of that name in a module.
macro_rules! pass_on {
    ($end:ident, $calls:ident) => {
        impl End for $end {
            fn counts(&self, Cluster { shares, u, r }: &Cluster, q: u32, out: &mut [u32]) -> u32 {
                $calls::counts(shares, *u, *r, q, out)
            }
            fn first_pair(
                &self,
                Link {
                    sending: s,
                    receiving: r,
                    q,
                }: &Link,
                k: u64,
                answer: &mut [u64; 2],
            ) -> u32 {
                $calls::first_pair(&s.shares, s.u, s.r, &r.shares, r.u, r.r, *q, k, answer)
            }
            fn resend_pair(&self, link: &Link, k: u64, n: u32, answer: &mut [u64; 3]) -> u32 {
                let Link {
                    sending: s,
                    receiving: r,
                    q,
                } = link;
                $calls::resend_pair(&s.shares, s.u, s.r, &r.shares, r.u, r.r, *q, k, n, answer)
            }
            fn open(
                &self,
                Link {
                    sending: s,
                    receiving: r,
                    q,
                }: &Link,
                window: &mut Words,
            ) -> u32 {
                $calls::open(&s.shares, s.u, s.r, &r.shares, r.u, r.r, *q, window)
            }
            fn judge(&self, window: &Words) -> u32 {
                $calls::judge(window)
            }
            fn send(&self, window: &mut Words, k: u64) -> u32 {
                $calls::send(window, k)
            }
            fn report(
                &self,
                window: &mut Words,
                report: (u32, u64, u64),
                out: &mut [u8],
                answer: &mut [u64; 1],
            ) -> u32 {
                let (member, number, mask) = report;
                $calls::report(window, member, number, mask, out, answer)
            }
            fn fresh(&self, holdings: &mut [u64; 2]) {
                $calls::fresh(holdings)
            }
            fn arrive(&self, holdings: &mut [u64; 2], k: u64) -> u32 {
                $calls::arrive(holdings, k)
            }
            fn receiver_report(&self, holdings: &[u64; 2], answer: &mut [u64; 2]) -> u32 {
                $calls::receiver_report(holdings, answer)
            }
            fn read(&self, bytes: &[u8], answer: &mut [u64; 4]) -> u32 {
                $calls::read(bytes, answer)
            }
            fn write(&self, (kind, member, number, mask): (u8, u8, u64, u64), out: &mut [u8]) -> u32 {
                $calls::write(kind, member, number, mask, out)
            }
            fn plan(&self, input: &[u8], out: &mut [u8; PLAN_BYTES]) -> usize {
                $calls::plan(input, out)
            }
        }
    };
}

pass_on!(Library, library);
pass_on!(Reference, reference);
pass_on!(Tuned, tuned);

/// Runs a call on an end and tells everything that is there afterwards.
pub fn run(end: &impl End, call: &Call) -> Answer {
    match call {
        Call::Counts { cluster, q, room } => {
            let mut places = vec![FILLED_PLACE; *room];
            let returned = end.counts(cluster, *q, &mut places).into();
            Answer {
                returned,
                places,
                ..Answer::default()
            }
        }
        Call::FirstPair { link, k } => answered(|answer| end.first_pair(link, *k, answer)),
        Call::ResendPair { link, k, n } => answered(|answer| end.resend_pair(link, *k, *n, answer)),
        Call::Open { link } => altered(&[FILLED_WORD; WORDS], |window| end.open(link, window)),
        Call::Judge { window } => Answer {
            returned: end.judge(window).into(),
            ..Answer::default()
        },
        Call::Send { window, k } => altered(window, |window| end.send(window, *k)),
        Call::Report {
            window,
            member,
            number,
            mask,
            room,
        } => run_report(end, window, (*member, *number, *mask), *room),
        Call::Fresh => altered(&[FILLED_WORD; 2], |holdings| {
            end.fresh(holdings);
            0
        }),
        Call::Arrive { holdings, k } => altered(holdings, |holdings| end.arrive(holdings, *k)),
        Call::ReceiverReport { holdings } => answered(|answer| end.receiver_report(holdings, answer)),
        Call::Read { bytes } => answered(|answer| end.read(bytes, answer)),
        Call::Write {
            kind,
            member,
            number,
            mask,
            room,
        } => written(*room, |out| end.write((*kind, *member, *number, *mask), out).into()),
        Call::Plan { input } => written(PLAN_BYTES, |out| {
            let out = out.try_into().expect("the output has a plan's bytes");
            end.plan(input, out) as u64
        }),
    }
}

fn run_report(end: &impl End, window: &Words, report: (u32, u64, u64), room: usize) -> Answer {
    let (mut after, mut bytes, mut numbers) = (*window, vec![FILL; room], [FILLED_WORD]);
    let returned = end.report(&mut after, report, &mut bytes, &mut numbers).into();
    Answer {
        returned,
        numbers: numbers.to_vec(),
        state: after.to_vec(),
        bytes,
        ..Answer::default()
    }
}

/// A call that writes an answer array.
fn answered<const N: usize>(call: impl FnOnce(&mut [u64; N]) -> u32) -> Answer {
    let mut numbers = [FILLED_WORD; N];
    let returned = call(&mut numbers).into();
    Answer {
        returned,
        numbers: numbers.to_vec(),
        ..Answer::default()
    }
}

/// A call that alters a state.
fn altered<const N: usize>(before: &[u64; N], call: impl FnOnce(&mut [u64; N]) -> u32) -> Answer {
    let mut state = *before;
    let returned = call(&mut state).into();
    Answer {
        returned,
        state: state.to_vec(),
        ..Answer::default()
    }
}

/// A call that writes bytes.
fn written(room: usize, call: impl FnOnce(&mut [u8]) -> u64) -> Answer {
    let mut bytes = vec![FILL; room];
    let returned = call(&mut bytes);
    Answer {
        returned,
        bytes,
        ..Answer::default()
    }
}
