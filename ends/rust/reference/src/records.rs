//! Link records: "24 bytes, records of one fixed size, no header: byte 0 kind, byte 1 member, bytes 2–7 zero, 8–15
//! number, 16–23 mask, little-endian."

use crate::refusals::{number as refusal_number, KIND, LENGTH, NOT_ZERO, SHORT_OUTPUT};

const RECORD_BYTES: usize = 24;

/// "The kind byte decides".
const UNUSED: u8 = 0;
const REPORT: u8 = 1;
const ARRIVAL: u8 = 2;

/// Reads a record: its kind, member, number and mask. Refusals in the order 16, 14, 15.
pub fn read(bytes: &[u8], answer: &mut [u64; 4]) -> u32 {
    *answer = [0; 4];
    let record = accepted_record(bytes);
    if let Ok(fields) = record {
        *answer = fields;
    }
    refusal_number(record.map(|_| ()))
}

/// "0 is an unused place (all other bytes zero), 1 a report, 2 a message arrival (mask zero), 3 to 127 reserved and
/// refused, 128 to 255 private, accepted and its contents not read."
fn accepted_record(bytes: &[u8]) -> Result<[u64; 4], u32> {
    let bytes: &[u8; RECORD_BYTES] = bytes.try_into().map_err(|_| LENGTH)?;
    let must_be_zero: &[u8] = match bytes[0] {
        UNUSED => &bytes[1..],
        REPORT => &bytes[2..8],
        ARRIVAL => &[&bytes[2..8], &bytes[16..]].concat(),
        3..=127 => return Err(KIND),
        128..=255 => return Ok([u64::from(bytes[0]), 0, 0, 0]),
    };
    if must_be_zero.iter().any(|&byte| byte != 0) {
        return Err(NOT_ZERO);
    }
    Ok([
        u64::from(bytes[0]),
        u64::from(bytes[1]),
        little_endian(&bytes[8..16]),
        little_endian(&bytes[16..]),
    ])
}

fn little_endian(bytes: &[u8]) -> u64 {
    bytes
        .iter()
        .rev()
        .fold(0, |number, &byte| number * 256 + u64::from(byte))
}

/// Writes a record. Refusals in the order 14, 15, 5.
pub fn write(kind: u8, member: u8, number: u64, mask: u64, out: &mut [u8]) -> u32 {
    refusal_number(accepted_writing(kind, member, number, mask, out))
}

/// "The writer writes kinds 0, 1, 2 only; any other kind is refusal 14, and a kind 0 with a field that is not zero, or
/// a kind 2 with a mask, is 15."
fn accepted_writing(kind: u8, member: u8, number: u64, mask: u64, out: &mut [u8]) -> Result<(), u32> {
    if ![UNUSED, REPORT, ARRIVAL].contains(&kind) {
        return Err(KIND);
    }
    if kind == UNUSED && (member != 0 || number != 0 || mask != 0) || kind == ARRIVAL && mask != 0 {
        return Err(NOT_ZERO);
    }
    let place = out.get_mut(..RECORD_BYTES).ok_or(SHORT_OUTPUT)?;
    place.fill(0);
    place[0] = kind;
    place[1] = member;
    place[8..16].copy_from_slice(&number.to_le_bytes());
    place[16..].copy_from_slice(&mask.to_le_bytes());
    Ok(())
}
