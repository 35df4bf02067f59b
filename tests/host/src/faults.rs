//! Values that an object is refused for, settings that every call on a chart refuses, and what lies just inside.

use crate::chart::Chart;
use dresserduck::Settings;

/// 2^24, the bound of starts, deltas and ratios.
pub const BOUND: f64 = 16_777_216.0;
/// 2^-24.
const LEAST_RATIO: f64 = 1.0 / BOUND;
/// The smallest subnormal, and the largest.
pub const TINY: f64 = f64::from_bits(1);
pub const LARGEST_SUBNORMAL: f64 = f64::from_bits(0x000F_FFFF_FFFF_FFFF);

/// Quiet, signalling, negative of both, and the largest payload.
const NANS: [u64; 6] = [
    0x7FF8_0000_0000_0000,
    0x7FF0_0000_0000_0001,
    0x7FF7_FFFF_FFFF_FFFF,
    0xFFF8_0000_0000_0000,
    0xFFF0_0000_0000_0001,
    0xFFFF_FFFF_FFFF_FFFF,
];

/// One value of one object.
#[derive(Clone, Copy, Debug)]
pub enum Value {
    Kind(u8),
    Start(f64),
    Delta(f64),
    Ratio(f64),
}

impl Value {
    /// The refusal that speaks of this field.
    pub fn refusal(self) -> u64 {
        match self {
            Value::Kind(_) => 4,
            Value::Start(_) => 5,
            Value::Delta(_) => 6,
            Value::Ratio(_) => 7,
        }
    }

    pub fn put(self, chart: &mut Chart, object: usize) {
        match self {
            Value::Kind(kind) => chart.kind[object] = kind,
            Value::Start(x) => chart.start[object] = x,
            Value::Delta(x) => chart.delta[object] = x,
            Value::Ratio(x) => chart.ratio[object] = x,
        }
    }
}

fn signed(sizes: &[f64]) -> Vec<f64> {
    sizes.iter().flat_map(|&x| [x, -x]).collect()
}

fn nans() -> Vec<f64> {
    let all = NANS.map(f64::from_bits);
    for (x, bits) in all.iter().zip(NANS) {
        assert!(x.is_nan() && x.to_bits() == bits, "{bits:016x} is kept");
    }
    all.to_vec()
}

/// Starts and deltas that are within their limits.
pub fn good_times() -> Vec<f64> {
    signed(&[
        BOUND,
        BOUND.next_down(),
        1.0,
        0.0,
        TINY,
        LARGEST_SUBNORMAL,
        f64::MIN_POSITIVE,
    ])
}

/// Starts and deltas that are refused.
pub fn bad_times() -> Vec<f64> {
    let outside = signed(&[BOUND.next_up(), BOUND + 1.0, f64::MAX, f64::INFINITY]);
    [outside, nans()].concat()
}

fn good_ratios() -> Vec<f64> {
    vec![
        LEAST_RATIO,
        LEAST_RATIO.next_up(),
        1.0,
        BOUND.next_down(),
        BOUND,
    ]
}

fn bad_ratios() -> Vec<f64> {
    let below = [
        LEAST_RATIO.next_down(),
        LARGEST_SUBNORMAL,
        TINY,
        0.0,
        -0.0,
        -TINY,
    ];
    let negative = [-LEAST_RATIO, -1.0, -BOUND, f64::MIN, f64::NEG_INFINITY];
    let above = [BOUND.next_up(), f64::MAX, f64::INFINITY];
    [below.to_vec(), negative.to_vec(), above.to_vec(), nans()].concat()
}

fn all_of(kinds: impl Iterator<Item = u8>, times: Vec<f64>, ratios: Vec<f64>) -> Vec<Value> {
    let mut all: Vec<Value> = kinds.map(Value::Kind).collect();
    all.extend(times.iter().map(|&x| Value::Start(x)));
    all.extend(times.iter().map(|&x| Value::Delta(x)));
    all.extend(ratios.into_iter().map(Value::Ratio));
    all
}

/// Values that are within every limit.
pub fn good_values() -> Vec<Value> {
    all_of(0..=2, good_times(), good_ratios())
}

/// Values that are refused.
pub fn bad_values() -> Vec<Value> {
    all_of(3..=255, bad_times(), bad_ratios())
}

/// A few refused values of one field; number is 4 to 7.
pub fn some_bad(number: u64) -> Vec<Value> {
    let of_field = |value: &Value| value.refusal() == number;
    let all: Vec<Value> = bad_values().into_iter().filter(of_field).collect();
    let last = all[all.len() - 1];
    vec![all[0], all[1], last]
}

/// The default, but for one number that is a bound of its range.
pub fn settings_at_bounds() -> Vec<Settings> {
    let base = Settings::DEFAULT;
    let margins = [0.0, -0.0, TINY, 50.0f64.next_down(), 50.0].map(|x| base.with_margin(x));
    let limits = [2, 64].map(|limit| base.with_search_limit(limit));
    let units = [0.0, -0.0, TINY, 1.0f64.next_down(), 1.0];
    let thresholds = units.map(|x| base.with_threshold(x));
    let tolerances = units.map(|x| base.with_tolerance(x));
    [&margins[..], &limits, &thresholds, &tolerances].concat()
}

/// Outside the range from 0.0 to this.
fn outside(most: f64) -> Vec<f64> {
    let below = [-TINY, -f64::MIN_POSITIVE, -1.0, f64::MIN, f64::NEG_INFINITY];
    let above = [most.next_up(), most + 1.0, f64::MAX, f64::INFINITY];
    [&below[..], &above, &nans()].concat()
}

/// Outside the range from 2 to 64; some are inside it to arithmetic of 8, 16 or 32 bits.
const BAD_LIMITS: [u64; 14] = [
    0,
    1,
    65,
    66,
    255,
    256,
    256 + 16,
    65_535,
    65_536,
    65_536 + 16,
    (1 << 32) + 16,
    1 << 63,
    (1 << 63) + 16,
    u64::MAX,
];

/// The default, but for one number that is refused.
pub fn bad_settings() -> Vec<Settings> {
    let base = Settings::DEFAULT;
    let limits = BAD_LIMITS.map(|limit| base.with_search_limit(limit));
    let margins = outside(50.0).into_iter().map(|x| base.with_margin(x));
    let thresholds = outside(1.0).into_iter().map(|x| base.with_threshold(x));
    let tolerances = outside(1.0).into_iter().map(|x| base.with_tolerance(x));
    let others = margins.chain(thresholds).chain(tolerances);
    others.chain(limits).collect()
}

/// One of each number, and one whose numbers are all refused.
pub fn some_bad_settings() -> [Settings; 5] {
    let base = Settings::DEFAULT;
    let all = Settings {
        margin: f64::NAN,
        search_limit: 0,
        threshold: f64::INFINITY,
        tolerance: -1.0,
    };
    [
        base.with_margin(50.0f64.next_up()),
        base.with_search_limit(65_536 + 16),
        base.with_threshold(-TINY),
        base.with_tolerance(f64::NAN),
        all,
    ]
}

/// The default, and these.
pub fn with_bad_settings() -> impl Iterator<Item = Settings> {
    std::iter::once(Settings::DEFAULT).chain(some_bad_settings())
}
