//! Dealing first copies by Hamilton's method.

use crate::cluster::{accepted, is_quantum};
use crate::limits::MEMBERS;

/// How many of q messages each member gets, in the first places of `out`. Refusals: 1, 2, 3, 4, 5.
pub fn counts(shares: &[u32], u: u32, r: u32, q: u32, out: &mut [u32]) -> u32 {
    let total = match accepted(shares, u, r) {
        Ok(total) => total,
        Err(refusal) => return refusal,
    };
    if !is_quantum(q) {
        return 4;
    }
    match out.get_mut(..shares.len()) {
        Some(out) => fill(shares, total, q, out),
        None => return 5,
    }
    0
}

/// Fills in the counts of an accepted cluster with this total, as many as it has members.
pub fn fill(shares: &[u32], total: u32, q: u32, out: &mut [u32]) {
    if let [only] = out {
        *only = q;
        return;
    }
    // Multiplying by the rounded-up inverse divides 32-bit numbers exactly: a share times q is below 2^32, and the
    // total of two members or more is at least 2.
    let inverse = u64::MAX / u64::from(total) + 1;
    let mut keys = [0; MEMBERS];
    let mut undealt = q;
    let mut uneven = 0;
    for (i, ((&share, count), key)) in shares.iter().zip(out.iter_mut()).zip(&mut keys).enumerate() {
        let product = share * q;
        *count = ((u128::from(inverse) * u128::from(product)) >> 64) as u32;
        undealt -= *count;
        uneven |= share ^ shares[0];
        // A remainder takes 26 bits; the member below it settles ties, the lower one having the larger key.
        *key = (product - *count * total) << 6 | (63 - i as u32);
    }
    if uneven == 0 {
        out[..undealt as usize].iter_mut().for_each(|count| *count += 1);
    } else if undealt != 0 {
        deal_rest(&mut keys[..shares.len()], undealt as usize, out);
    }
}

/// One more for each of the `undealt` largest keys.
fn deal_rest(keys: &mut [u32], undealt: usize, out: &mut [u32]) {
    keys.select_nth_unstable_by(undealt - 1, |a, b| b.cmp(a));
    for key in &keys[..undealt] {
        out[63 - (key & 63) as usize] += 1;
    }
}
