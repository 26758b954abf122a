//! The plan program.

use crate::raw::{self, PLAN_BYTES};

/// The plan program's text for its input's 12-byte records: a plan, or `refused N`.
pub fn plan(input: &[u8]) -> Vec<u8> {
    let mut out = [0; PLAN_BYTES];
    let length = raw::plan(input, &mut out);
    out[..length].to_vec()
}
