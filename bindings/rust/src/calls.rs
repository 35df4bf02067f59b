//! The nine calls as the library exports them, for a host that lends memory of its own. A
//! [`Workspace`](crate::Workspace) and a [`RawChart`] do the same with memory that they make.
//!
//! Each call takes a chart, then [`Settings`], then plain arguments, then the slices that it is lent to fill and to
//! work in; [`taps`] takes a [`TapChart`], [`lesson`] takes its pairs where others take arguments, and [`build`]
//! takes a raw chart, no settings, and has no slices to work in. It needs n places in each slice for n objects, 8n in
//! `work`, and in `mean` and `tenths` of [`lesson`] one for each pair; slices may be longer. The answer is a record
//! of plain numbers: `refusal` is 0 and the first n places of each slice, or as many as there are pairs, are filled,
//! with `work` and `scratch` left 0; or `refusal` is the number of the first [`Refusal`] that applies, `place` is the
//! object for 4 to 7 and 15, the pair for 9 and 11 of [`lesson`] and 0 for the others, every other field is 0, and
//! every slice is as it was lent. One answer slice may be left as it was where a call is accepted: the groups of
//! [`taps`].
//!
//! ```
//! use dresserduck::{calls, Chart, Settings};
//!
//! let chart = Chart::new(&[0, 1], &[0.0, 125.0], &[125.0; 2], &[1.0; 2]);
//! let (mut value, mut work, mut scratch) = ([0.0; 2], [0; 16], [0.0; 2]);
//! let settings = Settings::default();
//! let answer = calls::colour(&chart, settings, &mut value, &mut work, &mut scratch);
//! assert_eq!((answer.refusal, answer.place), (0, 0));
//! assert!(value[0] > 0.0);
//!
//! let answer = calls::colour(&chart, settings, &mut value, &mut work[..15], &mut scratch);
//! assert_eq!(answer.refusal, dresserduck::Refusal::SliceTooShort.number());
//! ```
//!
//! Each stands here under its C name too, with a pointer and a count for each slice, as include/dresserduck.h has it.

use crate::chart::Chart;
use crate::raw_chart::RawChart;
#[cfg(doc)]
use crate::refusal::Refusal;
use crate::settings::Settings;
use crate::tap_chart::TapChart;

/// What [`build`] answers.
#[repr(C)]
#[derive(Clone, Copy, Debug, Default, PartialEq, Eq)]
pub struct Built {
    /// 0, or the number of the first refusal that applies
    pub refusal: u64,
    /// the object that is refused by 4 to 6, else 0
    pub place: u64,
    /// how many objects the built chart has
    pub objects: u64,
}

/// What [`encode`] answers.
#[repr(C)]
#[derive(Clone, Copy, Debug, Default, PartialEq, Eq)]
pub struct Encoded {
    /// 0, or the number of the first refusal that applies
    pub refusal: u64,
    /// the object that is refused by 4 to 7, else 0
    pub place: u64,
    /// how many hit patterns there are
    pub hit_patterns: u64,
}

/// What [`turns`] answers.
#[repr(C)]
#[derive(Clone, Copy, Debug, Default, PartialEq, Eq)]
pub struct Turned {
    /// 0, or the number of the first refusal that applies
    pub refusal: u64,
    /// the object that is refused by 4 to 7, else 0
    pub place: u64,
}

/// What [`colour`] answers.
#[repr(C)]
#[derive(Clone, Copy, Debug, Default, PartialEq, Eq)]
pub struct Coloured {
    /// 0, or the number of the first refusal that applies
    pub refusal: u64,
    /// the object that is refused by 4 to 7, else 0
    pub place: u64,
}

/// What [`stretch`] answers.
#[repr(C)]
#[derive(Clone, Copy, Debug, Default, PartialEq)]
pub struct Stretched {
    /// 0, or the number of the first refusal that applies
    pub refusal: u64,
    /// the object that is refused by 4 to 7, else 0
    pub place: u64,
    /// the sum over the notes from left to right, divided by how many they are
    pub mean: f64,
    /// the whole number nearest to ten times the mean, of two as near the even one: of 0.25 it is 2, of 0.75 it is 8
    pub tenths: i64,
}

/// What [`lesson`] answers.
#[repr(C)]
#[derive(Clone, Copy, Debug, Default, PartialEq, Eq)]
pub struct Lessoned {
    /// 0, or the number of the first refusal that applies
    pub refusal: u64,
    /// the object that is refused by 4 to 7, the pair that is by 9 and 11, else 0
    pub place: u64,
}

/// What [`rhythm`] answers.
#[repr(C)]
#[derive(Clone, Copy, Debug, Default, PartialEq, Eq)]
pub struct Grouped {
    /// 0, or the number of the first refusal that applies
    pub refusal: u64,
    /// the object that is refused by 4 to 7, else 0
    pub place: u64,
    /// how many rhythm groups there are
    pub groups: u64,
    /// how many pattern groups
    pub pattern_groups: u64,
}

/// What [`taps`] answers.
#[repr(C)]
#[derive(Clone, Copy, Debug, Default, PartialEq, Eq)]
pub struct Tapped {
    /// 0, or the number of the first refusal that applies
    pub refusal: u64,
    /// the object that is refused by 4 to 7 and 15, else 0
    pub place: u64,
    /// 1 where the grouping looks at a pair that is open, else 0
    pub open: u64,
    /// how many rhythm groups there are; 0 where `open` is 1
    pub groups: u64,
}

/// What [`record`] answers. A field whose name ends in `_bits` is the bit pattern of an f64; a NaN is 7FF8000000000000.
#[repr(C)]
#[derive(Clone, Copy, Debug, Default, PartialEq, Eq)]
pub struct Recorded {
    /// 0, or the number of the first refusal that applies
    pub refusal: u64,
    /// the object that is refused by 4 to 7, else 0
    pub place: u64,
    /// the object that is the group's first note
    pub first_note: u64,
    /// how many notes it has
    pub note_count: u64,
    /// 1 where the group has an own interval, else 0
    pub has_own: u64,
    /// 0 where it is absent
    pub own_bits: u64,
    /// own interval over that of the group before
    pub ratio_bits: u64,
    /// from the start of the group before
    pub interval_bits: u64,
    /// a factor, as in [`GroupRecord`](crate::GroupRecord)
    pub penalty_bits: u64,
    /// the number of its pattern group
    pub pattern_group: u64,
    /// that one's interval over that of the pattern group before
    pub pattern_ratio_bits: u64,
}

extern "C" {
    /// # Safety
    /// Each pointer is aligned and valid for the count that follows it, and not null even where that is 0; no slice that is
    /// lent to be written overlaps another.
    pub fn dresserduck_build(
        kind: *const u8,
        kind_count: usize,
        time: *const f64,
        time_count: usize,
        rate: f64,
        built_kind: *mut u8,
        built_kind_count: usize,
        start: *mut f64,
        start_count: usize,
        delta: *mut f64,
        delta_count: usize,
        ratio: *mut f64,
        ratio_count: usize,
    ) -> Built;
}

/// The chart that the raw objects build, as in [`BuiltChart`](crate::BuiltChart).
pub fn build(
    raw: &RawChart,
    built_kind: &mut [u8],
    start: &mut [f64],
    delta: &mut [f64],
    ratio: &mut [f64],
) -> Built {
    // SAFETY: as of the calls on a chart, below.
    unsafe {
        dresserduck_build(
            raw.kind.as_ptr(),
            raw.kind.len(),
            raw.time.as_ptr(),
            raw.time.len(),
            raw.rate,
            built_kind.as_mut_ptr(),
            built_kind.len(),
            start.as_mut_ptr(),
            start.len(),
            delta.as_mut_ptr(),
            delta.len(),
            ratio.as_mut_ptr(),
            ratio.len(),
        )
    }
}

/// Declares exports on a chart, and each as a safe function over slices: the chart with its lists beside the kinds, the
/// arguments that follow the settings, or in brackets slices that do, `;`, the lent slices.
macro_rules! exports {
    ($(
        $(#[$doc:meta])*
        fn $name:ident = $export:ident(
            $chart:ident[$($list:ident),*] $(, $argument:ident: $type:ty)* $(, [$($read:ident: $number:ty),*])?;
            $($slice:ident: $element:ty),*
        ) -> $answer:ty;
    )*) => {
        extern "C" {
            $(
                /// # Safety
                /// Each pointer is aligned and valid for the count that follows it, and not null even where that is 0;
                /// no slice that is lent to be written overlaps another.
                pub fn $export(
                    kind: *const u8,
                    kind_count: usize,
                    $($list: *const f64, _: usize,)*
                    settings: Settings,
                    $($argument: $type,)*
                    $($($read: *const $number, _: usize,)*)?
                    $($slice: *mut $element, _: usize),*
                ) -> $answer;
            )*
        }
        $(
            $(#[$doc])*
            #[allow(clippy::too_many_arguments)] // as many as the export has
            pub fn $name(
                chart: &$chart,
                settings: Settings,
                $($argument: $type,)*
                $($($read: &[$number],)*)?
                $($slice: &mut [$element]),*
            ) -> $answer {
                // SAFETY: each pointer and count is that of one slice, so it is aligned, valid for its count and not
                // null; the lent slices are borrowed mutably, so they lie apart from all others. The library answers
                // every input, and reads and writes inside its slices only: both are proved.
                unsafe {
                    $export(
                        chart.kind.as_ptr(),
                        chart.kind.len(),
                        $(chart.$list.as_ptr(), chart.$list.len(),)*
                        settings,
                        $($argument,)*
                        $($($read.as_ptr(), $read.len(),)*)?
                        $($slice.as_mut_ptr(), $slice.len()),*
                    )
                }
            }
        )*
    };
}

exports! {
    /// Per object six numbers, as in [`Encoding`](crate::Encoding).
    fn encode = dresserduck_encode(Chart[start, delta, ratio]; streak: u16, streak_place: u16, pattern: u16,
        pattern_place: u16, hit: u16, interval: u8, work: u16, scratch: f64) -> Encoded;

    /// Per object the note before its streak and the note after it, as in [`Turns`](crate::Turns);
    /// [`NO_TURN`](crate::NO_TURN) where there is none.
    fn turns = dresserduck_turns(Chart[start, delta, ratio]; previous: u16, next: u16, work: u16,
        scratch: f64) -> Turned;

    /// Per object its colour value.
    fn colour = dresserduck_colour(Chart[start, delta, ratio]; value: f64, work: u16, scratch: f64) -> Coloured;

    /// The same, and the mean over the notes from object a to b, b not included, with its tenths.
    fn stretch = dresserduck_stretch(Chart[start, delta, ratio], a: usize, b: usize; value: f64, work: u16,
        scratch: f64) -> Stretched;

    /// The same as colour, and per pair the mean over its notes and that in tenths. A pair is an offset, its first
    /// object, and a length; each offset is above the one before.
    fn lesson = dresserduck_lesson(Chart[start, delta, ratio], [offset: u64, length: u64]; value: f64, mean: f64,
        tenths: i64, work: u16, scratch: f64) -> Lessoned;

    /// Per object its rhythm group and that one's pattern group; [`NO_GROUP`](crate::NO_GROUP) for a NonHit.
    fn rhythm = dresserduck_rhythm(Chart[start, delta, ratio]; group: u16, pattern: u16, work: u16,
        scratch: f64) -> Grouped;

    /// Per object what is sure of it and the next note, by the number of a [`PairClass`](crate::PairClass),
    /// [`NO_PAIR`](crate::NO_PAIR) for a NonHit and for the last note; and its rhythm group,
    /// [`NO_GROUP`](crate::NO_GROUP) for a NonHit. Where the answer is `open`, the groups are as they were lent.
    fn taps = dresserduck_taps(TapChart[start, lowest, highest, ratio]; pair: u8, group: u16, work: u16,
        scratch: f64) -> Tapped;

    /// One rhythm group by its number, with the hit window in milliseconds.
    fn record = dresserduck_record(Chart[start, delta, ratio], group: usize, window: f64; work: u16,
        scratch: f64) -> Recorded;
}
