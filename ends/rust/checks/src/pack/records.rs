//! read.txt and write.txt

use super::sheet::Sheet;
use crate::call::{Call, RECORD_BYTES};

/// A record's bytes, right or wrong: kind, member, number, mask.
fn record(kind: u8, member: u8, number: u64, mask: u64) -> Vec<u8> {
    [
        &[kind, member, 0, 0, 0, 0, 0, 0],
        &number.to_le_bytes()[..],
        &mask.to_le_bytes()[..],
    ]
    .concat()
}

fn read(bytes: Vec<u8>) -> Call {
    Call::Read { bytes }
}

pub fn read_sheet() -> String {
    let mut sheet = Sheet::new("read: a link record of 24 bytes");
    let large = 0x0807_0605_0403_0201;
    sheet.group("Unused, report, arrival; member and number of any range, bit 0 set or not.");
    for bytes in [
        record(0, 0, 0, 0),
        record(1, 3, 5, 6),
        record(1, 0, 0, 0),
        record(1, 255, u64::MAX, u64::MAX),
        record(1, 64, large, large + 1),
        record(2, 3, 5, 0),
        record(2, 0, 0, 0),
        record(2, 255, u64::MAX, 0),
    ] {
        sheet.accepts(read(bytes));
    }
    sheet.group("The kind byte: 3 to 127 are reserved, 128 to 255 private, whatever else they hold.");
    for (refusal, kind) in [(14, 3), (14, 64), (14, 127), (0, 128), (0, 200), (0, 255)] {
        sheet.answers(refusal, read(record(kind, 0, 0, 0)));
        sheet.answers(refusal, read(vec![kind; RECORD_BYTES]));
        sheet.answers(refusal, read(record(kind, 3, 5, 6)));
    }
    must_be_zero(&mut sheet);
    sheet.group("Length: 24 bytes.");
    for (refusal, length) in [(16, 0), (16, 1), (16, 23), (0, 24), (16, 25), (16, 48)] {
        sheet.answers(refusal, read(vec![0; length]));
    }
    sheet.order(
        &record(1, 3, 5, 6),
        &[
            (16, |bytes| bytes.truncate(23)),
            (14, |bytes| bytes[0] = 3),
            (15, |bytes| bytes[7] = 1),
        ],
        read,
    );
    sheet.text()
}

fn must_be_zero(sheet: &mut Sheet) {
    sheet.group(
        "Each byte of an unused place, of a report and of an arrival is set alone: those that must be zero are 15.",
    );
    for kind in [0, 1, 2] {
        for at in 1..RECORD_BYTES {
            let mut bytes = record(kind, 0, 0, 0);
            bytes[at] = 0x80;
            let refused = match kind {
                0 => true,
                1 => (2..8).contains(&at),
                _ => (2..8).contains(&at) || at >= 16,
            };
            sheet.answers(if refused { 15 } else { 0 }, read(bytes));
        }
    }
}

pub fn write_sheet() -> String {
    let mut sheet = Sheet::new("write: a link record of kind 0, 1 or 2");
    let write = |kind, member, number, mask, room| Call::Write {
        kind,
        member,
        number,
        mask,
        room,
    };
    let large = 0x0807_0605_0403_0201;
    sheet.group("Unused, report, arrival; member and number of any range, bit 0 set or not.");
    sheet.accepts(write(0, 0, 0, 0, 24));
    sheet.accepts(write(1, 3, 5, 6, 24));
    sheet.accepts(write(1, 0, 0, 0, 24));
    sheet.accepts(write(1, 255, u64::MAX, u64::MAX, 24));
    sheet.accepts(write(1, 64, large, large + 1, 24));
    sheet.accepts(write(2, 3, 5, 0, 24));
    sheet.accepts(write(2, 255, u64::MAX, 0, 24));
    sheet.group("Kinds that are not writable, private ones among them.");
    for kind in [3, 64, 127, 128, 200, 255] {
        sheet.answers(14, write(kind, 0, 0, 0, 24));
    }
    sheet.group("Fields that must be zero.");
    sheet.answers(15, write(0, 1, 0, 0, 24));
    sheet.answers(15, write(0, 0, 1, 0, 24));
    sheet.answers(15, write(0, 0, 0, 1, 24));
    sheet.answers(15, write(2, 3, 5, 1, 24));
    sheet.answers(15, write(2, 3, 5, 1 << 63, 24));
    sheet.group("Room: 24 bytes; later bytes stay.");
    for (refusal, room) in [(5, 0), (5, 23), (0, 24), (0, 25), (0, 48)] {
        sheet.answers(refusal, write(1, 3, 5, 6, room));
    }
    sheet.order(
        &(2, 3, 5, 0, 24),
        &[
            (14, |(kind, ..)| *kind = 3),
            (15, |(_, _, _, mask, _)| *mask = 2),
            (5, |(.., room)| *room = 23),
        ],
        |(kind, member, number, mask, room)| write(kind, member, number, mask, room),
    );
    sheet.text()
}
