//! Marks: a cumulative number and a mask, and words as sets of 64.

/// How many bits there are up to the highest marked one.
pub fn reach(mask: u64) -> u64 {
    u64::from(64 - mask.leading_zeros())
}

/// Whether a report holds nothing above s.
pub fn none_above(c: u64, mask: u64, s: u64) -> bool {
    c <= s && reach(mask) <= s - c
}

/// The mask moved down by d bits, any d.
pub fn past(mask: u64, d: u64) -> u64 {
    if d < 64 {
        mask >> d
    } else {
        0
    }
}

/// The first d of 64 bits, any d.
pub fn first(d: u64) -> u64 {
    if d < 64 {
        (1 << d) - 1
    } else {
        u64::MAX
    }
}

/// What a report holds of the 64 messages after p: bit o speaks of message p + 1 + o.
pub fn held_after(p: u64, c: u64, mask: u64) -> u64 {
    if c < p {
        return past(mask, p - c);
    }
    let d = c - p;
    first(d) | if d < 64 { mask << d } else { 0 }
}

/// The bits of a set, lowest first.
pub fn bits(mut set: u64) -> impl Iterator<Item = u64> {
    std::iter::from_fn(move || {
        let lowest = set.trailing_zeros();
        set &= set.wrapping_sub(1);
        (lowest < 64).then_some(u64::from(lowest))
    })
}
