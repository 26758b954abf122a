//! Random link records and plan inputs: right ones, and ones that are nearly right.

use crate::pack::{bytes_of, records_of};
use crate::random::Random;

/// Bytes to be read: a record that is right, or one with a byte altered, or of another length, or any bytes.
pub fn link_record(random: &Random) -> Vec<u8> {
    let kind = random.pick(&[0, 1, 1, 2, 2, 3, 127, 128, 255, random.word() as u8]);
    let mut bytes = vec![0; 24];
    bytes[0] = kind;
    if kind != 0 {
        bytes[1] = random.word() as u8;
        bytes[8..16].copy_from_slice(&random.wild().to_le_bytes());
    }
    if kind != 0 && kind != 2 {
        bytes[16..].copy_from_slice(&random.bits().to_le_bytes());
    }
    match random.between(0, 9) {
        0 => bytes.resize(random.pick(&[0, 1, 23, 25, 48]), 0),
        1..=4 => alter_byte(random, &mut bytes),
        5 => bytes.fill_with(|| random.word() as u8),
        _ => {}
    }
    bytes
}

fn alter_byte(random: &Random, bytes: &mut [u8]) {
    if !bytes.is_empty() {
        let at = random.place(bytes.len());
        bytes[at] = random.pick(&[0, 1, bytes[at] ^ (1 << random.between(0, 7)), random.word() as u8]);
    }
}

/// A plan's input: right, or altered once or twice.
pub fn plan_input(random: &Random) -> Vec<u8> {
    let link = super::clusters::any_link(random, 8);
    let message = random.pick(&[1, random.wild_32(), random.between(1, 5_000) as u32]);
    let mut input: Vec<u8> = records_of(&link, message).into_iter().flat_map(bytes_of).collect();
    if random.chance(40) {
        alter_input(random, &mut input);
    }
    if random.chance(10) {
        alter_input(random, &mut input);
    }
    input
}

fn alter_input(random: &Random, input: &mut Vec<u8>) {
    let records = input.len() / 12;
    let record = 12 * random.place(records.max(1));
    match random.between(0, 7) {
        0 | 1 => alter_byte(random, input),
        2 => input.truncate(random.place(input.len() + 1)),
        3 => input.resize(random.pick(&[0, 12, 4_092, 4_095, 4_096, 4_097, 4_104]), 0),
        4 if records > 0 => drop(input.drain(record..record + 12)),
        5 if records > 0 => {
            let copy = input[record..record + 12].to_vec();
            let at = 12 * random.place(records);
            input.splice(at..at, copy);
        }
        6 if records > 0 => {
            // One share many times, so that lengths come near 4,096 bytes.
            let copy = input[record..record + 12].repeat(random.pick(&[60, 330, 341]));
            input.splice(record..record, copy);
        }
        _ => input.push(random.word() as u8),
    }
}
