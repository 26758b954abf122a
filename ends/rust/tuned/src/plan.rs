//! The plan program's text.

use crate::circle::{divisor, Circle};
use crate::cluster::accepted_pair;
use crate::dealer::owner;
use crate::limits::MEMBERS;
use crate::text::Text;

/// The longest text.
const ROOM: usize = 3458;

/// The most bytes that an input may have.
const INPUT: usize = 4096;

/// The two numbers of a 12-byte record.
struct Line {
    first: u32,
    second: u32,
}

/// A cluster as the input gives it: its shares, of which those past the 64th are only counted, u and r.
struct Given {
    shares: [u32; MEMBERS + 1],
    members: usize,
    u: u32,
    r: u32,
}

impl Given {
    /// The shares, one too many where there are more.
    fn shares(&self) -> &[u32] {
        &self.shares[..self.members.min(MEMBERS + 1)]
    }
}

/// The text for an input of any bytes; how many bytes it has.
pub fn plan(input: &[u8], out: &mut [u8; ROOM]) -> usize {
    let mut text = Text::new(out);
    if let Err(refusal) = put_plan(input, &mut text) {
        text.put(b"refused ");
        text.put_field(u64::from(refusal), b'\n');
    }
    text.length()
}

/// The lines of a plan, or the refusal: 19, then as for pairs. Nothing is written before all is judged.
fn put_plan(input: &[u8], text: &mut Text) -> Result<(), u32> {
    let (sending, receiving, last) = built(input).ok_or(19u32)?;
    let (ss, rs, q) = (sending.shares(), receiving.shares(), last.first);
    let totals = accepted_pair(ss, sending.u, sending.r, rs, receiving.u, receiving.r, q)?;
    if last.second == 0 {
        return Err(6);
    }
    let (quantum, slot) = ((last.second - 1) / q, (last.second - 1) % q);
    let sender = owner(ss, totals.sending, q, slot);
    let receiver = owner(rs, totals.receiving, q, (slot + quantum % q) % q);
    text.put(b"resend from to run\n");
    put_line(text, [0, sender as u64, receiver as u64, 0]);
    let circle = Circle::of(ss, rs, &totals);
    let divisor = divisor(&totals);
    let mut at = circle.after(sender);
    for n in 1..ss.len() + rs.len() {
        let run = circle.run(at) / divisor;
        put_line(text, [n as u64, at.sender as u64, at.receiver as u64, run]);
        at = circle.next(at);
    }
    Ok(())
}

fn put_line(text: &mut Text, [n, from, to, run]: [u64; 4]) {
    text.put_field(n, b' ');
    text.put_field(from, b' ');
    text.put_field(to, b' ');
    text.put_field(run, b'\n');
}

/// What a well-built input says: the two clusters, and the quantum with the message.
fn built(input: &[u8]) -> Option<(Given, Given, Line)> {
    if input.len() > INPUT {
        return None;
    }
    let mut rest = input;
    let sending = take_cluster(&mut rest, 1)?;
    let receiving = take_cluster(&mut rest, 3)?;
    let last = take_line(&mut rest, 5)?;
    rest.is_empty().then_some((sending, receiving, last))
}

/// Takes a line of u and r, and the lines of shares that follow it with the next kind.
fn take_cluster(rest: &mut &[u8], kind: u8) -> Option<Given> {
    let head = take_line(rest, kind)?;
    let mut given = Given {
        shares: [0; MEMBERS + 1],
        members: 0,
        u: head.first,
        r: head.second,
    };
    while let Some(share) = take_share(rest, kind + 1) {
        if let Some(place) = given.shares.get_mut(given.members) {
            *place = share;
        }
        given.members += 1;
    }
    Some(given)
}

fn take_share(rest: &mut &[u8], kind: u8) -> Option<u32> {
    let mut after = *rest;
    let line = take_line(&mut after, kind)?;
    (line.second == 0).then(|| {
        *rest = after;
        line.first
    })
}

/// Takes a record of this kind, if the next one is.
fn take_line(rest: &mut &[u8], kind: u8) -> Option<Line> {
    let (record, after) = rest.split_first_chunk::<12>()?;
    let number = |at: usize| u32::from_le_bytes([record[at], record[at + 1], record[at + 2], record[at + 3]]);
    if number(0) != u32::from(kind) {
        return None;
    }
    *rest = after;
    Some(Line {
        first: number(4),
        second: number(8),
    })
}
