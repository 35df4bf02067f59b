//! Values to try: the special ones, and others drawn from a seed.

pub use crate::xorshift::Xorshift;

/// The smallest positive subnormal.
const LEAST: f64 = f64::from_bits(1);

/// The ends of the format's ranges, with both signs.
pub const SPECIAL: [f64; 12] = [
    0.0,
    -0.0,
    LEAST,
    -LEAST,
    f64::MIN_POSITIVE,
    -f64::MIN_POSITIVE,
    1.0,
    -1.0,
    f64::MAX,
    f64::MIN,
    f64::INFINITY,
    f64::NEG_INFINITY,
];

impl Xorshift {
    /// A whole number of exactly `size` binary digits; 0 for the size 0.
    pub fn of_size(&mut self, size: u32) -> u64 {
        match size {
            0 => 0,
            _ => (self.bits() | 1 << 63) >> (64 - size),
        }
    }

    /// Any f64, NaNs and infinities too.
    pub fn any(&mut self) -> f64 {
        f64::from_bits(self.bits())
    }

    /// Any f64 but a NaN.
    pub fn number(&mut self) -> f64 {
        loop {
            let x = self.any();
            if !x.is_nan() {
                return x;
            }
        }
    }

    /// An f64 with the given exponent field and random sign and digits; field 0 gives subnormals.
    pub fn with_field(&mut self, field: u64) -> f64 {
        f64::from_bits(self.bits() & !(0x7FF << 52) | field << 52)
    }
}

/// x, the f64s right above and below it, and the three negated.
pub fn neighbours(x: f64) -> [f64; 6] {
    let (up, down) = (x.next_up(), x.next_down());
    [x, up, down, -x, -up, -down]
}
