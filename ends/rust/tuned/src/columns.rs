//! From rows of bits to columns.

use crate::limits::MEMBERS;

/// Turns rows into columns: bit j of word i becomes bit i of word j. Halves, quarters and so on change places.
pub fn turn(rows: &mut [u64; MEMBERS]) {
    let mut width = 32;
    let mut low = u64::MAX >> 32;
    while width > 0 {
        for block in rows.chunks_exact_mut(2 * width) {
            let (upper, lower) = block.split_at_mut(width);
            for (a, b) in upper.iter_mut().zip(lower) {
                let swap = (*a >> width ^ *b) & low;
                *a ^= swap << width;
                *b ^= swap;
            }
        }
        width /= 2;
        low ^= low << width;
    }
}
