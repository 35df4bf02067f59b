//! A chart that is built of what an editor holds.

use crate::calls;
use crate::chart::Chart;
use crate::refusal::{accepted, Refusal};
use crate::workspace::room;

/// The most raw objects that a chart may be built of: two more than it may have.
pub const LARGEST_RAW_CHART: usize = 16_386;

/// Raw objects, borrowed: two slices of one length, of at most [`LARGEST_RAW_CHART`] objects, and a clock rate.
///
/// The first two become no object of the chart; each of the others becomes one. Nothing is tested here: to build tells what
/// is wrong.
///
/// ```
/// use dresserduck::{RawChart, Refusal, CENTER, RIM};
///
/// let raw = RawChart {
///     kind: &[CENTER, CENTER, CENTER, RIM, 3],
///     time: &[0.0, 250.0, 500.0, 750.0, 1000.0],
///     rate: 1.0,
/// };
/// // the object that raw object 4 becomes
/// assert_eq!(raw.build(), Err(Refusal::BadKind { object: 2 }));
/// ```
#[derive(Clone, Copy, Debug)]
pub struct RawChart<'a> {
    /// per raw object [`CENTER`](crate::CENTER), [`RIM`](crate::RIM) or [`NON_HIT`](crate::NON_HIT); the first two are not
    /// read
    pub kind: &'a [u8],
    /// when it starts, in milliseconds; the first is not read, and the second only for the delta of object 0
    pub time: &'a [f64],
    /// how many times as fast as written the chart is played, from 0.25 to 4.0
    pub rate: f64,
}

impl<'a> RawChart<'a> {
    /// The two slices and the rate, in the order of the fields.
    pub const fn new(kind: &'a [u8], time: &'a [f64], rate: f64) -> Self {
        RawChart { kind, time, rate }
    }

    /// The chart: object i is made of the raw object i + 2. An object that is refused is counted in the chart, too.
    ///
    /// ```
    /// use dresserduck::RawChart;
    ///
    /// let time = [0.0, 300.0, 600.0, 900.0, 1050.0];
    /// let built = RawChart::new(&[0, 0, 0, 1, 1], &time, 1.5).build()?;
    /// assert_eq!(built.kind, [0, 1, 1]);
    /// assert_eq!(built.start, [400.0, 600.0, 700.0]);
    /// assert_eq!(built.delta, [200.0, 200.0, 100.0]);
    /// assert_eq!(built.ratio, [1.0, 1.0, 0.5]);
    /// # Ok::<(), dresserduck::Refusal>(())
    /// ```
    pub fn build(&self) -> Result<BuiltChart, Refusal> {
        let mut built = BuiltChart::default();
        self.build_into(&mut built)?;
        Ok(built)
    }

    /// The same into a built chart whose memory is used again. What it holds after a refusal is of no use.
    pub fn build_into(&self, out: &mut BuiltChart) -> Result<(), Refusal> {
        let n = self.kind.len().saturating_sub(2);
        room(&mut out.kind, n);
        for times in [&mut out.start, &mut out.delta, &mut out.ratio] {
            room(times, n);
        }
        let answer = calls::build(
            self,
            &mut out.kind,
            &mut out.start,
            &mut out.delta,
            &mut out.ratio,
        );
        accepted(answer.refusal, answer.place)
    }
}

/// A chart that [`RawChart::build`] made, with the lists that its [`Chart`] borrows.
#[derive(Clone, Debug, Default, PartialEq)]
pub struct BuiltChart {
    /// the kind of the raw object
    pub kind: Vec<u8>,
    /// its time, divided by the rate
    pub start: Vec<f64>,
    /// its time less that of the raw object before it, divided by the rate
    pub delta: Vec<f64>,
    /// 1, 2, 1/2, 3, 1/3, 3/2, 2/3, 5/4 or 4/5, whichever is nearest to its delta over the delta before; 1 for the first
    /// object and where that quotient is not finite
    pub ratio: Vec<f64>,
}

impl BuiltChart {
    /// As every call takes it; none refuses it for its objects.
    pub fn chart(&self) -> Chart<'_> {
        Chart::new(&self.kind, &self.start, &self.delta, &self.ratio)
    }
}
