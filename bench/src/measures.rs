//! What a sweep asks of all sequences at once: least total, greatest total, set of totals.

pub trait Measure {
    /// No sequence at all.
    const NONE: u64;
    /// The sequence without duties.
    const START: u64;
    fn add(code: u64, gain: u8) -> u64;
    fn join(a: u64, b: u64) -> u64;
}

/// A total is its own code.
pub struct Least;

impl Measure for Least {
    const NONE: u64 = u64::MAX;
    const START: u64 = 0;

    fn add(code: u64, gain: u8) -> u64 {
        code.saturating_add(u64::from(gain))
    }

    fn join(a: u64, b: u64) -> u64 {
        a.min(b)
    }
}

/// A total's code is one more than the total.
pub struct Greatest;

impl Measure for Greatest {
    const NONE: u64 = 0;
    const START: u64 = 1;

    fn add(code: u64, gain: u8) -> u64 {
        if code == 0 { 0 } else { code + u64::from(gain) }
    }

    fn join(a: u64, b: u64) -> u64 {
        a.max(b)
    }
}

/// Bit k stands for the total k; totals above 63 are dropped.
pub struct Totals;

impl Measure for Totals {
    const NONE: u64 = 0;
    const START: u64 = 1;

    fn add(code: u64, gain: u8) -> u64 {
        code << (gain & 15)
    }

    fn join(a: u64, b: u64) -> u64 {
        a | b
    }
}
