//! A chart as the calls take it.

/// The most objects that a chart may have.
pub const LARGEST_CHART: usize = 16_384;

/// The kind of a note on the drum's head.
pub const CENTER: u8 = 0;
/// The kind of a note on the drum's rim.
pub const RIM: u8 = 1;
/// The kind of an object that is no note.
pub const NON_HIT: u8 = 2;

/// A chart, borrowed: four slices of one length, of at most [`LARGEST_CHART`] objects.
///
/// Nothing is tested here: a call on the chart tells what is wrong with it.
///
/// ```
/// use dresserduck::{Chart, Refusal, Settings, Workspace, CENTER};
///
/// let chart = Chart {
///     kind: &[CENTER, 3],
///     start: &[0.0, 125.0],
///     delta: &[125.0, 125.0],
///     ratio: &[1.0, 1.0],
/// };
/// let refusal = Workspace::new().colour(&chart, Settings::default()).unwrap_err();
/// assert_eq!(refusal, Refusal::BadKind { object: 1 });
/// assert_eq!(refusal.number(), 4);
/// ```
#[derive(Clone, Copy, Debug)]
pub struct Chart<'a> {
    /// per object [`CENTER`], [`RIM`] or [`NON_HIT`]
    pub kind: &'a [u8],
    /// when it starts, in milliseconds: finite and within ±16,777,216
    pub start: &'a [f64],
    /// the time since the object before it, in milliseconds: finite and within ±16,777,216
    pub delta: &'a [f64],
    /// its rhythm ratio, from 2^−24 to 2^24
    pub ratio: &'a [f64],
}

impl<'a> Chart<'a> {
    /// The four slices, in the order of the fields.
    pub const fn new(kind: &'a [u8], start: &'a [f64], delta: &'a [f64], ratio: &'a [f64]) -> Self {
        Chart {
            kind,
            start,
            delta,
            ratio,
        }
    }

    /// How many objects there are, counted on the kinds.
    pub const fn len(&self) -> usize {
        self.kind.len()
    }

    /// Whether there is no object.
    pub const fn is_empty(&self) -> bool {
        self.kind.is_empty()
    }
}
