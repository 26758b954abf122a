//! The limits of single numbers, and the two that are judged on their own.

use crate::refusals::{MESSAGE, QUANTUM};

/// Members of a cluster at most; also the places of the window, and the bits of a mask.
pub(crate) const PLACES: usize = 64;
/// "Message numbers: 1 to 1,000,000,000,000."
pub(crate) const LAST_MESSAGE: u64 = 1_000_000_000_000;
/// "Resend numbers: 1 to 255."
pub(crate) const LAST_RESEND: u32 = 255;

/// "Quantum q: 1 to 1,024."
pub(crate) fn judge_quantum(q: u32) -> Result<(), u32> {
    if q == 0 || q > 1_024 {
        return Err(QUANTUM);
    }
    Ok(())
}

/// "Message numbers: 1 to 1,000,000,000,000."
pub(crate) fn judge_message(k: u64) -> Result<(), u32> {
    if k == 0 || k > LAST_MESSAGE {
        return Err(MESSAGE);
    }
    Ok(())
}
