//! The memory that the calls work in, and the calls.

use std::ops::Range;

use crate::calls;
use crate::chart::{Chart, LARGEST_CHART};
use crate::pairs::Pairs;
use crate::refusal::{accepted, accepted_lesson, Refusal};
use crate::result::{Encoding, GroupRecord, Lesson, Rhythm, Stretch, Taps, Turns};
use crate::settings::Settings;
use crate::tap_chart::TapChart;

/// The two work slices, and room for the colour values of a stretch. They grow to the largest chart that was asked
/// about, and are kept for the next call.
///
/// ```
/// use dresserduck::{Chart, Refusal, Settings, Workspace};
///
/// let mut workspace = Workspace::new();
/// let mut values = Vec::new(); // its memory too is used again
/// for kind in [&[0, 1][..], &[1; 300], &[]] {
///     let (times, ratio) = (vec![125.0; kind.len()], vec![1.0; kind.len()]);
///     let chart = Chart::new(kind, &times, &times, &ratio);
///     workspace.colour_into(&chart, Settings::default(), &mut values)?;
///     assert_eq!(values.len(), kind.len());
/// }
/// # Ok::<(), Refusal>(())
/// ```
#[derive(Clone, Debug, Default)]
pub struct Workspace {
    work: Vec<u16>,
    scratch: Vec<f64>,
    values: Vec<f64>,
}

/// Makes room for n answers. Of a chart that is too large nothing is asked, since it is refused by its size.
pub(crate) fn room<T: Copy + Default>(answers: &mut Vec<T>, n: usize) {
    answers.resize(n.min(LARGEST_CHART), T::default());
}

impl Workspace {
    /// An empty workspace; it allocates when it is used.
    pub fn new() -> Self {
        Self::default()
    }

    fn grow(&mut self, n: usize) {
        let n = n.min(LARGEST_CHART);
        if self.scratch.len() < n {
            self.work.resize(8 * n, 0);
            self.scratch.resize(n, 0.0);
        }
    }

    /// Streaks, alternating patterns, hit patterns and their repetition intervals.
    pub fn encode(&mut self, chart: &Chart, settings: Settings) -> Result<Encoding, Refusal> {
        let mut encoding = Encoding::default();
        self.encode_into(chart, settings, &mut encoding)?;
        Ok(encoding)
    }

    /// The same into an encoding whose memory is used again. What it holds after a refusal is of no use.
    pub fn encode_into(
        &mut self,
        chart: &Chart,
        settings: Settings,
        out: &mut Encoding,
    ) -> Result<(), Refusal> {
        let n = chart.len();
        self.grow(n);
        for numbers in [
            &mut out.streak,
            &mut out.streak_place,
            &mut out.pattern,
            &mut out.pattern_place,
            &mut out.hit,
        ] {
            room(numbers, n);
        }
        room(&mut out.interval, n);
        let answer = calls::encode(
            chart,
            settings,
            &mut out.streak,
            &mut out.streak_place,
            &mut out.pattern,
            &mut out.pattern_place,
            &mut out.hit,
            &mut out.interval,
            &mut self.work,
            &mut self.scratch,
        );
        accepted(answer.refusal, answer.place)?;
        out.hit_patterns = answer.hit_patterns as usize;
        Ok(())
    }

    /// Where the colour turns: for each object the note before its streak and the note after it.
    ///
    /// ```
    /// use dresserduck::{Chart, Settings, Workspace};
    ///
    /// // d kk d
    /// let chart = Chart::new(&[0, 1, 1, 0], &[0.0; 4], &[125.0; 4], &[1.0; 4]);
    /// let turns = Workspace::new().turns(&chart, Settings::default())?;
    /// assert_eq!([0, 1, 2, 3].map(|i| turns.previous(i)), [None, Some(0), Some(0), Some(2)]);
    /// assert_eq!([0, 1, 2, 3].map(|i| turns.next(i)), [Some(1), Some(3), Some(3), None]);
    /// # Ok::<(), dresserduck::Refusal>(())
    /// ```
    pub fn turns(&mut self, chart: &Chart, settings: Settings) -> Result<Turns, Refusal> {
        let mut turns = Turns::default();
        self.turns_into(chart, settings, &mut turns)?;
        Ok(turns)
    }

    /// The same into turns whose memory is used again. What they hold after a refusal is of no use.
    pub fn turns_into(
        &mut self,
        chart: &Chart,
        settings: Settings,
        out: &mut Turns,
    ) -> Result<(), Refusal> {
        self.grow(chart.len());
        room(&mut out.previous, chart.len());
        room(&mut out.next, chart.len());
        let answer = calls::turns(
            chart,
            settings,
            &mut out.previous,
            &mut out.next,
            &mut self.work,
            &mut self.scratch,
        );
        accepted(answer.refusal, answer.place)
    }

    /// Each object's colour value: how new the change of colour at it is, not how fast. Never a NaN or an infinity.
    pub fn colour(&mut self, chart: &Chart, settings: Settings) -> Result<Vec<f64>, Refusal> {
        let mut values = Vec::new();
        self.colour_into(chart, settings, &mut values)?;
        Ok(values)
    }

    /// The same into a list whose memory is used again. What it holds after a refusal is of no use.
    pub fn colour_into(
        &mut self,
        chart: &Chart,
        settings: Settings,
        values: &mut Vec<f64>,
    ) -> Result<(), Refusal> {
        self.grow(chart.len());
        room(values, chart.len());
        let answer = calls::colour(chart, settings, values, &mut self.work, &mut self.scratch);
        accepted(answer.refusal, answer.place)
    }

    /// The mean of the colour values of the notes among some objects. A NonHit there counts for nothing.
    ///
    /// ```
    /// use dresserduck::{Chart, Refusal, Settings, Workspace};
    ///
    /// // d, a roll, k
    /// let chart = Chart::new(&[0, 2, 1], &[0.0, 125.0, 250.0], &[125.0; 3], &[1.0; 3]);
    /// let (mut workspace, settings) = (Workspace::new(), Settings::default());
    /// let values = workspace.colour(&chart, settings)?;
    /// assert_eq!(workspace.stretch(&chart, settings, 0..3)?.mean, (values[0] + values[2]) / 2.0);
    /// assert_eq!(workspace.stretch(&chart, settings, 1..2), Err(Refusal::NoNote));
    /// assert_eq!(workspace.stretch(&chart, settings, 0..4), Err(Refusal::OutsideChart));
    /// # Ok::<(), Refusal>(())
    /// ```
    pub fn stretch(
        &mut self,
        chart: &Chart,
        settings: Settings,
        objects: Range<usize>,
    ) -> Result<Stretch, Refusal> {
        self.grow(chart.len());
        room(&mut self.values, chart.len());
        let Range { start, end } = objects;
        let answer = calls::stretch(
            chart,
            settings,
            start,
            end,
            &mut self.values,
            &mut self.work,
            &mut self.scratch,
        );
        accepted(answer.refusal, answer.place)?;
        Ok(Stretch {
            mean: answer.mean,
            tenths: answer.tenths,
        })
    }

    /// The same of several stretches at once, at most [`MOST_PAIRS`](crate::MOST_PAIRS). They may overlap; each
    /// begins after the one before it.
    ///
    /// ```
    /// use dresserduck::{Chart, Refusal, Settings, Workspace};
    ///
    /// // d, k, a roll, k
    /// let chart = Chart::new(&[0, 1, 2, 1], &[0.0; 4], &[125.0; 4], &[1.0; 4]);
    /// let (mut workspace, settings) = (Workspace::new(), Settings::default());
    /// let lesson = workspace.lesson(&chart, settings, &[0..3, 1..4])?;
    /// assert_eq!(lesson.stretches[1], workspace.stretch(&chart, settings, 1..4)?);
    /// let refused = workspace.lesson(&chart, settings, &[0..3, 2..3]);
    /// assert_eq!(refused, Err(Refusal::PairWithoutNote { pair: 1 }));
    /// # Ok::<(), Refusal>(())
    /// ```
    pub fn lesson(
        &mut self,
        chart: &Chart,
        settings: Settings,
        stretches: &[Range<usize>],
    ) -> Result<Lesson, Refusal> {
        let mut lesson = Lesson::default();
        self.lesson_into(chart, settings, stretches, &mut lesson)?;
        Ok(lesson)
    }

    /// The same into a lesson whose memory is used again. What it holds after a refusal is of no use.
    pub fn lesson_into(
        &mut self,
        chart: &Chart,
        settings: Settings,
        stretches: &[Range<usize>],
        out: &mut Lesson,
    ) -> Result<(), Refusal> {
        self.grow(chart.len());
        room(&mut out.values, chart.len());
        let mut pairs = Pairs::of(stretches);
        let answer = calls::lesson(
            chart,
            settings,
            &pairs.offset[..pairs.count],
            &pairs.length[..pairs.count],
            &mut out.values,
            &mut pairs.mean,
            &mut pairs.tenths,
            &mut self.work,
            &mut self.scratch,
        );
        accepted_lesson(answer.refusal, answer.place)?;
        out.stretches.clear();
        out.stretches.extend(pairs.told());
        Ok(())
    }

    /// Rhythm groups and pattern groups.
    ///
    /// ```
    /// use dresserduck::{Chart, Settings, Workspace};
    ///
    /// // two notes at 100 ms, a NonHit, and a note at 200 ms
    /// let (start, delta) = ([0.0, 100.0, 150.0, 300.0], [100.0, 100.0, 50.0, 200.0]);
    /// let chart = Chart::new(&[0, 0, 2, 1], &start, &delta, &[1.0; 4]);
    /// let rhythm = Workspace::new().rhythm(&chart, Settings::default())?;
    /// assert_eq!(rhythm.groups, 2);
    /// assert_eq!([0, 1, 2, 3].map(|i| rhythm.group(i)), [Some(0), Some(0), None, Some(1)]);
    /// # Ok::<(), dresserduck::Refusal>(())
    /// ```
    pub fn rhythm(&mut self, chart: &Chart, settings: Settings) -> Result<Rhythm, Refusal> {
        let mut rhythm = Rhythm::default();
        self.rhythm_into(chart, settings, &mut rhythm)?;
        Ok(rhythm)
    }

    /// The same into a rhythm whose memory is used again. What it holds after a refusal is of no use.
    pub fn rhythm_into(
        &mut self,
        chart: &Chart,
        settings: Settings,
        out: &mut Rhythm,
    ) -> Result<(), Refusal> {
        self.grow(chart.len());
        room(&mut out.group, chart.len());
        room(&mut out.pattern_group, chart.len());
        let answer = calls::rhythm(
            chart,
            settings,
            &mut out.group,
            &mut out.pattern_group,
            &mut self.work,
            &mut self.scratch,
        );
        accepted(answer.refusal, answer.place)?;
        out.groups = answer.groups as usize;
        out.pattern_groups = answer.pattern_groups as usize;
        Ok(())
    }

    /// What holds for every chart that has these kinds and a delta inside each of these ranges: the class of each note
    /// and the next one, and the rhythm groups. Those are open where the grouping looks at a pair that is open.
    ///
    /// Of two notes it looks at no pair; of more, neither at the first pair, nor at the one right behind a rise that it
    /// looked at, unless it is the last, at which it always looks.
    ///
    /// ```
    /// use dresserduck::{PairClass, Settings, TapChart, Workspace};
    ///
    /// // three taps 100 ms apart and one at 200, each within 1 ms
    /// let (kind, start) = ([0, 0, 0, 1], [100.0, 200.0, 300.0, 500.0]);
    /// let (lowest, highest) = ([99.0, 99.0, 99.0, 199.0], [101.0, 101.0, 101.0, 201.0]);
    /// let (mut workspace, settings) = (Workspace::new(), Settings::default());
    /// let chart = TapChart::new(&kind, &start, &lowest, &highest, &[1.0; 4]);
    /// let taps = workspace.taps(&chart, settings)?;
    /// let classes = [0, 1, 2, 3].map(|i| taps.pair(i));
    /// let [near, rise] = [PairClass::Near, PairClass::Rise].map(Some);
    /// assert_eq!(classes, [near, near, rise, None]);
    /// assert_eq!(taps.groups, Some(2));
    /// assert_eq!([0, 1, 2, 3].map(|i| taps.group(i)), [0, 0, 0, 1].map(Some));
    ///
    /// // all at 100 ms, but only within 3 ms: two of them may be 6 ms apart
    /// let (lowest, highest) = ([97.0; 4], [103.0; 4]);
    /// let chart = TapChart::new(&kind, &start, &lowest, &highest, &[1.0; 4]);
    /// let taps = workspace.taps(&chart, settings)?;
    /// assert_eq!(taps.pair(0), Some(PairClass::Open));
    /// assert_eq!((taps.groups, taps.group(0)), (None, None));
    /// # Ok::<(), dresserduck::Refusal>(())
    /// ```
    pub fn taps(&mut self, chart: &TapChart, settings: Settings) -> Result<Taps, Refusal> {
        let mut taps = Taps::default();
        self.taps_into(chart, settings, &mut taps)?;
        Ok(taps)
    }

    /// The same into taps whose memory is used again. What they hold after a refusal is of no use.
    pub fn taps_into(
        &mut self,
        chart: &TapChart,
        settings: Settings,
        out: &mut Taps,
    ) -> Result<(), Refusal> {
        self.grow(chart.len());
        room(&mut out.pair, chart.len());
        room(&mut out.group, chart.len());
        let answer = calls::taps(
            chart,
            settings,
            &mut out.pair,
            &mut out.group,
            &mut self.work,
            &mut self.scratch,
        );
        accepted(answer.refusal, answer.place)?;
        out.groups = (answer.open == 0).then_some(answer.groups as usize);
        if answer.open == 1 {
            // the call left it as it was
            out.group.clear();
        }
        Ok(())
    }

    /// One rhythm group, by its number. The window is the hit window in milliseconds, from 1.0 to 1,000.0.
    ///
    /// ```
    /// use dresserduck::{Chart, Settings, Workspace};
    ///
    /// let chart = Chart::new(&[0; 3], &[0.0, 105.0, 210.0], &[100.0, 105.0, 105.0], &[1.0; 3]);
    /// let record = Workspace::new().record(&chart, Settings::default(), 0, 50.0)?;
    /// assert_eq!((record.first_note, record.note_count), (0, 3));
    /// assert_eq!(record.own_interval, Some(102.0));
    /// # Ok::<(), dresserduck::Refusal>(())
    /// ```
    pub fn record(
        &mut self,
        chart: &Chart,
        settings: Settings,
        group: usize,
        window: f64,
    ) -> Result<GroupRecord, Refusal> {
        self.grow(chart.len());
        let answer = calls::record(
            chart,
            settings,
            group,
            window,
            &mut self.work,
            &mut self.scratch,
        );
        accepted(answer.refusal, answer.place)?;
        Ok(GroupRecord {
            first_note: answer.first_note as usize,
            note_count: answer.note_count as usize,
            own_interval: (answer.has_own == 1).then_some(f64::from_bits(answer.own_bits)),
            ratio: f64::from_bits(answer.ratio_bits),
            interval: f64::from_bits(answer.interval_bits),
            penalty: f64::from_bits(answer.penalty_bits),
            pattern_group: answer.pattern_group as usize,
            pattern_ratio: f64::from_bits(answer.pattern_ratio_bits),
        })
    }
}
