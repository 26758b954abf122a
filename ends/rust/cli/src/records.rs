//! The plan program's input.

use crate::asked::{Asked, Side};
use crate::mistake::Mistake;

/// The 12-byte records: kind, three zeros, two 32-bit little-endian numbers. Nothing is judged; the plan program does that.
pub fn of(asked: &Asked) -> Result<Vec<u8>, Mistake> {
    let message = u32::try_from(asked.message).map_err(|_| {
        let most = u32::MAX;
        Mistake::Usage(format!(
            "--message: a record has 32 bits for it; expected at most {most} with --records"
        ))
    })?;
    let mut records = cluster(&asked.sending, 1);
    records.extend(cluster(&asked.receiving, 3));
    records.push([5, asked.quantum, message]);
    Ok(records.concat().into_iter().flat_map(u32::to_le_bytes).collect())
}

/// A record of u and r, and one of the next kind for each share. A kind below 256 has its three zeros in its own four bytes.
fn cluster(side: &Side, kind: u32) -> Vec<[u32; 3]> {
    let mut records = vec![[kind, side.u, side.r]];
    records.extend(side.shares.iter().map(|&share| [kind + 1, share, 0]));
    records
}
