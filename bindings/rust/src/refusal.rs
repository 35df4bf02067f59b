//! Why a call was refused: by its number, its object, and a sentence.

use std::error::Error;
use std::fmt;

/// The first refusal that applies. The first three are the host programmer's, the next four and 15 the chart
/// writer's, the others the player's settings'. They are tested in the order of their numbers, but 10 and 16 before
/// 4, 15 between 6 and 7, and 17 before 9; 9 and 11 of a lesson are tested for one pair after another.
///
/// ```
/// use dresserduck::{Chart, Settings, Workspace};
///
/// let chart = Chart::new(&[0], &[0.0], &[f64::NAN], &[1.0]);
/// let refusal = Workspace::new().encode(&chart, Settings::default()).unwrap_err();
/// assert_eq!((refusal.number(), refusal.object()), (6, Some(0)));
/// println!("{refusal}");
/// ```
#[derive(Clone, Copy, Debug, PartialEq, Eq, Hash)]
#[non_exhaustive]
pub enum Refusal {
    /// 1: more than 16,384 objects, or more than 16,386 raw ones.
    TooManyObjects,
    /// 2: the chart's slices, or the two of the raw objects or of the pairs, are not of one length.
    LengthsDiffer,
    /// 3: an answer or work slice is too short. A [`Workspace`](crate::Workspace) and a [`RawChart`](crate::RawChart) never
    /// lend one.
    SliceTooShort,
    /// 4: an object's kind is above 2.
    BadKind {
        /// its number, counted from 0
        object: usize,
    },
    /// 5: an object's start is not finite or outside ±16,777,216.
    BadStart {
        /// its number, counted from 0
        object: usize,
    },
    /// 6: an object's delta, or the least or the most that it may be, is not finite or outside ±16,777,216.
    BadDelta {
        /// its number, counted from 0
        object: usize,
    },
    /// 7: an object's ratio lies outside 2^−24 to 2^24, or is a NaN.
    BadRatio {
        /// its number, counted from 0
        object: usize,
    },
    /// 8: the window lies outside 1.0 to 1,000.0, or is a NaN.
    BadWindow,
    /// 9: the stretch is empty or ends past the chart, or there is no group of this number.
    OutsideChart,
    /// 9 of a lesson: a pair's stretch is empty or ends past the chart.
    PairOutsideChart {
        /// its number, counted from 0
        pair: usize,
    },
    /// 10: the rate lies outside 0.25 to 4.0, or is a NaN.
    BadRate,
    /// 11: the stretch has no note, only NonHits.
    NoNote,
    /// 11 of a lesson: a pair's stretch has no note, only NonHits.
    PairWithoutNote {
        /// its number, counted from 0
        pair: usize,
    },
    /// 15: the least that an object's delta may be is above the most.
    LowestAboveHighest {
        /// its number, counted from 0
        object: usize,
    },
    /// 16: a number of the [`Settings`](crate::Settings) lies outside its range, or is a NaN.
    BadSettings,
    /// 17: the lesson has more than 32 pairs, or one that begins no later than the one before it.
    BadLesson,
}

impl Refusal {
    /// The number by which the library refuses.
    pub const fn number(self) -> u64 {
        match self {
            Refusal::TooManyObjects => 1,
            Refusal::LengthsDiffer => 2,
            Refusal::SliceTooShort => 3,
            Refusal::BadKind { .. } => 4,
            Refusal::BadStart { .. } => 5,
            Refusal::BadDelta { .. } => 6,
            Refusal::BadRatio { .. } => 7,
            Refusal::BadWindow => 8,
            Refusal::OutsideChart | Refusal::PairOutsideChart { .. } => 9,
            Refusal::BadRate => 10,
            Refusal::NoNote | Refusal::PairWithoutNote { .. } => 11,
            Refusal::LowestAboveHighest { .. } => 15,
            Refusal::BadSettings => 16,
            Refusal::BadLesson => 17,
        }
    }

    /// The object that is refused, where it is one.
    pub const fn object(self) -> Option<usize> {
        match self {
            Refusal::BadKind { object }
            | Refusal::BadStart { object }
            | Refusal::BadDelta { object }
            | Refusal::BadRatio { object }
            | Refusal::LowestAboveHighest { object } => Some(object),
            _ => None,
        }
    }

    /// The pair of the lesson that is refused, where it is one.
    pub const fn pair(self) -> Option<usize> {
        match self {
            Refusal::PairOutsideChart { pair } | Refusal::PairWithoutNote { pair } => Some(pair),
            _ => None,
        }
    }

    /// What is wrong: a sentence, or the end of one that begins with the object or the pair.
    const fn words(self) -> &'static str {
        match self {
            Refusal::TooManyObjects => "The chart has more than 16,384 objects.",
            Refusal::LengthsDiffer => {
                "The program gave a kind, a time, a start, a delta or a ratio for some objects only."
            }
            Refusal::SliceTooShort => "The program gave too little memory for this chart.",
            Refusal::BadKind { .. } => "is neither a Center, a Rim nor a NonHit.",
            Refusal::BadStart { .. } => {
                "has a start that is not from -16,777,216 to 16,777,216 milliseconds."
            }
            Refusal::BadDelta { .. } => {
                "has a delta, the time since the object before, that is not from -16,777,216 to 16,777,216 milliseconds."
            }
            Refusal::BadRatio { .. } => {
                "has a rhythm ratio that is not from 1/16,777,216 to 16,777,216."
            }
            Refusal::BadWindow => {
                "The hit window in the settings is not from 1 to 1,000 milliseconds."
            }
            Refusal::OutsideChart => {
                "The passage or rhythm group that was asked for is not in the chart."
            }
            Refusal::PairOutsideChart { .. } => "is empty or ends past the chart.",
            Refusal::BadRate => "The clock rate in the settings is not from 0.25 to 4.",
            Refusal::NoNote => "The passage that was asked for has no note, only rolls and swells.",
            Refusal::PairWithoutNote { .. } => "has no note, only rolls and swells.",
            Refusal::LowestAboveHighest { .. } => "has a lowest delta that is above its highest.",
            Refusal::BadSettings => {
                "The margin in the settings is not from 0 to 50 milliseconds, the search limit not from 2 to 64, \
                 or the threshold or the tolerance not from 0 to 1."
            }
            Refusal::BadLesson => {
                "The lesson has more than 32 passages, or one that begins no later than the one before it."
            }
        }
    }

    /// The refusal with this number and place; none for 0.
    pub(crate) fn of(number: u64, place: u64) -> Option<Self> {
        let object = place as usize;
        match number {
            0 => None,
            1 => Some(Refusal::TooManyObjects),
            2 => Some(Refusal::LengthsDiffer),
            3 => Some(Refusal::SliceTooShort),
            4 => Some(Refusal::BadKind { object }),
            5 => Some(Refusal::BadStart { object }),
            6 => Some(Refusal::BadDelta { object }),
            7 => Some(Refusal::BadRatio { object }),
            8 => Some(Refusal::BadWindow),
            9 => Some(Refusal::OutsideChart),
            10 => Some(Refusal::BadRate),
            11 => Some(Refusal::NoNote),
            15 => Some(Refusal::LowestAboveHighest { object }),
            16 => Some(Refusal::BadSettings),
            17 => Some(Refusal::BadLesson),
            _ => unreachable!("the library has no refusal {number}"),
        }
    }

    /// What this one is where a lesson is refused with it, at this place: 9 and 11 are about a pair.
    fn of_lesson(self, place: u64) -> Self {
        let pair = place as usize;
        match self {
            Refusal::OutsideChart => Refusal::PairOutsideChart { pair },
            Refusal::NoNote => Refusal::PairWithoutNote { pair },
            other => other,
        }
    }
}

/// What a call answered, by its number and place.
pub(crate) fn accepted(number: u64, place: u64) -> Result<(), Refusal> {
    match Refusal::of(number, place) {
        None => Ok(()),
        Some(refusal) => Err(refusal),
    }
}

/// The same of the call lesson.
pub(crate) fn accepted_lesson(number: u64, place: u64) -> Result<(), Refusal> {
    accepted(number, place).map_err(|refusal| refusal.of_lesson(place))
}

/// A sentence for whoever looks into it: it names the chart, the program or the settings, whichever is at fault.
impl fmt::Display for Refusal {
    fn fmt(&self, out: &mut fmt::Formatter<'_>) -> fmt::Result {
        if let Some(object) = self.object() {
            write!(out, "Object {object} of the chart, counted from 0, ")?;
        }
        if let Some(pair) = self.pair() {
            write!(out, "Passage {pair} of the lesson, counted from 0, ")?;
        }
        out.write_str(self.words())
    }
}

impl Error for Refusal {}
