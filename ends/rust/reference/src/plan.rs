//! The plan program's text.

use crate::circle::Circle;
use crate::clusters::Cluster;
use crate::limits::judge_message;
use crate::pairs::{judge_pair_of_clusters, original_receiver, original_sender};
use crate::refusals::BADLY_BUILT;

/// "Standard input, at most 4,096 bytes".
const MOST_INPUT_BYTES: usize = 4_096;
const RECORD_BYTES: usize = 12;
/// Room for the longest text, as the C header fixes it.
const PLAN_BYTES: usize = 3_458;

/// "12-byte records: kind, three zeros, two 32-bit little-endian numbers."
struct Record {
    kind: u8,
    numbers: [u32; 2],
}

/// What the input's records say.
struct Input {
    sending_bounds: [u32; 2],
    sending_shares: Vec<u32>,
    receiving_bounds: [u32; 2],
    receiving_shares: Vec<u32>,
    quantum: u32,
    message: u32,
}

/// Writes the text into the first bytes of `out` and returns how many it has.
pub fn plan(input: &[u8], out: &mut [u8; PLAN_BYTES]) -> usize {
    let text = accepted_plan(input).unwrap_or_else(|number| format!("refused {number}\n"));
    out[..text.len()].copy_from_slice(text.as_bytes());
    text.len()
}

/// "A header, a line for the first copy (resend 0, run 0) and the resends up to the number in demand 3. Fields: resend
/// number, sender, receiver, run, in decimal, one space between; each line ends with a newline."
fn accepted_plan(bytes: &[u8]) -> Result<String, u32> {
    let input = read_input(bytes).ok_or(BADLY_BUILT)?;
    let sending = cluster(&input.sending_shares, input.sending_bounds);
    let receiving = cluster(&input.receiving_shares, input.receiving_bounds);
    let (q, k) = (input.quantum, u64::from(input.message));
    judge_pair_of_clusters(&sending, &receiving, q)?;
    judge_message(k)?;
    let sender = original_sender(&sending, q, k);
    let mut text = format!(
        "resend from to run\n0 {} {} 0\n",
        sender,
        original_receiver(&receiving, q, k)
    );
    // Demand 3: "Among the first (sending members + receiving members − 1) resends [...]".
    let resends = sending.shares.len() + receiving.shares.len() - 1;
    for (n, resend) in (1..=resends).zip(Circle::new(&sending, &receiving).resends(sender)) {
        text += &format!("{n} {} {} {}\n", resend.sender, resend.receiver, resend.run);
    }
    Ok(text)
}

fn cluster(shares: &[u32], [u, r]: [u32; 2]) -> Cluster<'_> {
    Cluster { shares, u, r }
}

/// "In this order: one kind 1 (sending u, r), kinds 2 (share, zero), one kind 3 (receiving u, r), kinds 4 (share,
/// zero), one kind 5 (quantum, message). Any other build, a nonzero byte where zero is named, or more than 4,096 bytes
/// is 19; no kind 2 or no kind 4 at all is 1, by the order for pairs."
fn read_input(bytes: &[u8]) -> Option<Input> {
    if bytes.len() > MOST_INPUT_BYTES || !bytes.len().is_multiple_of(RECORD_BYTES) {
        return None;
    }
    let records: Vec<Record> = bytes
        .chunks_exact(RECORD_BYTES)
        .map(read_record)
        .collect::<Option<_>>()?;
    let mut rest = records.as_slice();
    let sending_bounds = take_one(&mut rest, 1)?;
    let sending_shares = take_shares(&mut rest, 2)?;
    let receiving_bounds = take_one(&mut rest, 3)?;
    let receiving_shares = take_shares(&mut rest, 4)?;
    let [quantum, message] = take_one(&mut rest, 5)?;
    if !rest.is_empty() {
        return None;
    }
    Some(Input {
        sending_bounds,
        sending_shares,
        receiving_bounds,
        receiving_shares,
        quantum,
        message,
    })
}

fn read_record(bytes: &[u8]) -> Option<Record> {
    let number = |at: usize| u32::from_le_bytes([bytes[at], bytes[at + 1], bytes[at + 2], bytes[at + 3]]);
    let zeros = bytes[1..4] == [0; 3];
    zeros.then(|| Record {
        kind: bytes[0],
        numbers: [number(4), number(8)],
    })
}

/// The numbers of the first record left, which must be of this kind.
fn take_one(rest: &mut &[Record], kind: u8) -> Option<[u32; 2]> {
    let (first, others) = rest.split_first()?;
    *rest = others;
    (first.kind == kind).then_some(first.numbers)
}

/// The shares of all records of this kind that come next, perhaps none.
fn take_shares(rest: &mut &[Record], kind: u8) -> Option<Vec<u32>> {
    let many = rest.iter().take_while(|record| record.kind == kind).count();
    let (records, others) = rest.split_at(many);
    *rest = others;
    records
        .iter()
        .map(
            |&Record {
                 numbers: [share, zero], ..
             }| (zero == 0).then_some(share),
        )
        .collect()
}
