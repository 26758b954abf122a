//! Link records of 24 bytes.

/// Reads a record: kind, member, number and mask into `answer`. Refusals: 16, 14, 15.
pub fn read(bytes: &[u8], answer: &mut [u64; 4]) -> u32 {
    *answer = [0; 4];
    let Ok(record) = <&[u8; 24]>::try_from(bytes) else {
        return 16;
    };
    let (head, number, mask) = (word(record, 0), word(record, 8), word(record, 16));
    let (kind, member, zeros) = (head & 255, head >> 8 & 255, head >> 16);
    let off = match kind {
        0 => member | zeros | number | mask,
        1 => zeros,
        2 => zeros | mask,
        3..=127 => return 14,
        _ => {
            answer[0] = kind;
            return 0;
        }
    };
    if off != 0 {
        return 15;
    }
    *answer = [kind, member, number, mask];
    0
}

/// The eight bytes from a place on, little-endian.
fn word(record: &[u8; 24], at: usize) -> u64 {
    u64::from_le_bytes(*record[at..].first_chunk().expect("each word lies within the record"))
}

/// Writes a record of kind 0, 1 or 2. Refusals: 14, 15, 5.
pub fn write(kind: u8, member: u8, number: u64, mask: u64, out: &mut [u8]) -> u32 {
    let off = match kind {
        0 => u64::from(member) | number | mask,
        1 => 0,
        2 => mask,
        _ => return 14,
    };
    if off != 0 {
        return 15;
    }
    let Some(record) = out.first_chunk_mut::<24>() else {
        return 5;
    };
    let head = u64::from(kind) | u64::from(member) << 8;
    record[..8].copy_from_slice(&head.to_le_bytes());
    record[8..16].copy_from_slice(&number.to_le_bytes());
    record[16..].copy_from_slice(&mask.to_le_bytes());
    0
}
