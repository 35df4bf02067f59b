//! A chart whose deltas are known to within ranges, as the call taps takes it.

/// A chart, borrowed, as a foot switch gives it: of each delta only the least and the most that it may be are known.
/// Five slices of one length, of at most [`LARGEST_CHART`](crate::LARGEST_CHART) objects.
///
/// Nothing is tested here: [`Workspace::taps`](crate::Workspace::taps) tells what is wrong with it.
///
/// ```
/// use dresserduck::{Refusal, Settings, TapChart, Workspace, CENTER, RIM};
///
/// let chart = TapChart {
///     kind: &[CENTER, RIM],
///     start: &[0.0, 125.0],
///     lowest: &[123.0, 127.0],
///     highest: &[127.0, 123.0],
///     ratio: &[1.0, 1.0],
/// };
/// let refusal = Workspace::new().taps(&chart, Settings::default()).unwrap_err();
/// assert_eq!(refusal, Refusal::LowestAboveHighest { object: 1 });
/// assert_eq!(refusal.number(), 15);
/// ```
#[derive(Clone, Copy, Debug)]
pub struct TapChart<'a> {
    /// per object [`CENTER`](crate::CENTER), [`RIM`](crate::RIM) or [`NON_HIT`](crate::NON_HIT)
    pub kind: &'a [u8],
    /// when it starts, in milliseconds: finite and within ±16,777,216
    pub start: &'a [f64],
    /// the least that its delta may be, the time since the object before it, in milliseconds: finite and within
    /// ±16,777,216
    pub lowest: &'a [f64],
    /// the most that its delta may be: finite and within ±16,777,216, and not below `lowest`
    pub highest: &'a [f64],
    /// its rhythm ratio, from 2^−24 to 2^24
    pub ratio: &'a [f64],
}

impl<'a> TapChart<'a> {
    /// The five slices, in the order of the fields.
    pub const fn new(
        kind: &'a [u8],
        start: &'a [f64],
        lowest: &'a [f64],
        highest: &'a [f64],
        ratio: &'a [f64],
    ) -> Self {
        TapChart {
            kind,
            start,
            lowest,
            highest,
            ratio,
        }
    }

    /// How many objects there are, counted on the kinds.
    pub const fn len(&self) -> usize {
        self.kind.len()
    }

    /// Whether there is no object.
    pub const fn is_empty(&self) -> bool {
        self.kind.is_empty()
    }
}
