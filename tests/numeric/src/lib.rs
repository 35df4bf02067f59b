//! Exports of libtest_host.a as safe functions, and the values that the tests try.

#[path = "../../plain_tenths.rs"]
pub mod plain_tenths;
pub mod samples;
#[path = "../../xorshift.rs"]
mod xorshift;

/// 2^53: below it in size, `tenths` may be called.
pub const TENTHS_LIMIT: f64 = 9_007_199_254_740_992.0;

/// The bits of the one NaN that is handed back.
pub const CANONICAL_NAN: u64 = 0x7FF8_0000_0000_0000;

// SAFETY: the exports take and return plain values and touch no memory.
unsafe extern "C" {
    /// Whether |a - b|, with the difference rounded, is at most the margin.
    #[link_name = "numeric_near"]
    pub safe fn near(a: f64, b: f64, margin: f64) -> bool;

    /// IEEE 754's totalOrder(a, b) for numbers; false where one is a NaN.
    #[link_name = "numeric_total_order"]
    pub safe fn total_order(a: f64, b: f64) -> bool;

    /// The whole number nearest to x, of two as near the even one.
    #[link_name = "numeric_round_ties_even"]
    pub safe fn round_ties_even(x: f64) -> f64;

    // It asks for a range, so it is not for everyone to call.
    fn numeric_tenths(x: f64) -> i64;

    /// T(n) of the logistic table, and +0.0 from n = 264 on.
    #[link_name = "numeric_logistic"]
    pub safe fn logistic(n: usize) -> f64;

    /// x, but of all NaNs only the one with the bits CANONICAL_NAN.
    #[link_name = "numeric_canonical"]
    pub safe fn canonical(x: f64) -> f64;

    /// The bits of x; of a NaN CANONICAL_NAN.
    #[link_name = "numeric_bits"]
    pub safe fn bits(x: f64) -> u64;
}

/// The whole number nearest to 10 x, at an exact half the even one; x lies between -2^53 and 2^53.
pub fn tenths(x: f64) -> i64 {
    assert!(x.abs() < TENTHS_LIMIT, "tenths({x:?}) is out of range");
    // SAFETY: x is in the range that it asks for.
    unsafe { numeric_tenths(x) }
}
