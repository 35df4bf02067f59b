//! What the calls answer.

use std::ops::Range;

/// Per object six numbers, all counted from 0.
#[derive(Clone, Debug, Default, PartialEq, Eq)]
pub struct Encoding {
    /// how many hit patterns there are
    pub hit_patterns: usize,
    /// each object's streak
    pub streak: Vec<u16>,
    /// the streak's place in its alternating pattern
    pub streak_place: Vec<u16>,
    /// each object's alternating pattern
    pub pattern: Vec<u16>,
    /// the alternating pattern's place in its hit pattern
    pub pattern_place: Vec<u16>,
    /// each object's hit pattern
    pub hit: Vec<u16>,
    /// how many hit patterns back the last one like it was, below the search limit; the limit plus 1 for none
    pub interval: Vec<u8>,
}

impl Encoding {
    /// The objects of each hit pattern, in order.
    ///
    /// ```
    /// use dresserduck::{Chart, Settings, Workspace};
    ///
    /// let chart = Chart::new(&[0, 0, 1], &[0.0; 3], &[125.0; 3], &[1.0; 3]);
    /// let encoding = Workspace::new().encode(&chart, Settings::default())?;
    /// assert!(encoding.hit_pattern_objects().eq([0..2, 2..3]));
    /// # Ok::<(), dresserduck::Refusal>(())
    /// ```
    pub fn hit_pattern_objects(&self) -> impl Iterator<Item = Range<usize>> + '_ {
        let mut at = 0;
        self.hit.chunk_by(|a, b| a == b).map(move |objects| {
            let from = at;
            at += objects.len();
            from..at
        })
    }
}

/// Per object two notes: the one before its streak and the one after it. Notes are numbered from 0 without the NonHits.
///
/// ```
/// use dresserduck::{Chart, Settings, Turns, Workspace};
///
/// // d, k, a roll, k, d: four notes, and the streaks d, k, then the roll with the k behind it, d
/// let chart = Chart::new(&[0, 1, 2, 1, 0], &[0.0; 5], &[125.0; 5], &[1.0; 5]);
/// let turns = Workspace::new().turns(&chart, Settings::default())?;
/// let both = |object| (turns.previous(object), turns.next(object));
/// assert_eq!(both(1), (Some(0), Some(2))); // what comes next has its colour, too
/// assert_eq!(both(3), (None, Some(3))); // its streak begins with the roll
/// # Ok::<(), dresserduck::Refusal>(())
/// ```
#[derive(Clone, Debug, Default, PartialEq, Eq)]
pub struct Turns {
    pub(crate) previous: Vec<u16>,
    pub(crate) next: Vec<u16>,
}

/// The number that stands for a note that is not there.
pub const NO_TURN: u16 = 65_535;

impl Turns {
    /// The note before the first object of an object's streak; none where no note stands before it, where it is a NonHit,
    /// and past the chart.
    pub fn previous(&self, object: usize) -> Option<usize> {
        number_at(&self.previous, object, NO_TURN)
    }

    /// The note after the last object of an object's streak; none where no note stands after it, and past the chart. Where
    /// it is a NonHit, the streak is this NonHit alone, and the note is number 1, wherever the NonHit stands; none in a
    /// chart of fewer than two notes.
    pub fn next(&self, object: usize) -> Option<usize> {
        number_at(&self.next, object, NO_TURN)
    }
}

/// The mean of the colour values of a stretch's notes.
#[derive(Clone, Copy, Debug, PartialEq)]
pub struct Stretch {
    /// the sum over the notes from left to right, divided by how many they are
    pub mean: f64,
    /// the whole number nearest to ten times the mean, of two as near the even one: of 0.25 it is 2, of 0.75 it is 8
    pub tenths: i64,
}

/// The colour values of a chart, and what is told of each stretch that a lesson marks on it.
#[derive(Clone, Debug, Default, PartialEq)]
pub struct Lesson {
    /// each object's colour value
    pub values: Vec<f64>,
    /// each stretch, as a call of its own tells it, in the order in which they were asked
    pub stretches: Vec<Stretch>,
}

/// The most stretches that a lesson may have.
pub const MOST_PAIRS: usize = 32;

/// Per object its rhythm group and its pattern group.
#[derive(Clone, Debug, Default, PartialEq, Eq)]
pub struct Rhythm {
    /// how many rhythm groups there are
    pub groups: usize,
    /// how many pattern groups
    pub pattern_groups: usize,
    pub(crate) group: Vec<u16>,
    pub(crate) pattern_group: Vec<u16>,
}

/// The number that stands for the group of a NonHit, which has none.
pub const NO_GROUP: u16 = 65_535;

fn number_at(numbers: &[u16], object: usize, none: u16) -> Option<usize> {
    let number = *numbers.get(object)?;
    (number != none).then_some(usize::from(number))
}

impl Rhythm {
    /// The rhythm group of an object; none for a NonHit, and past the chart.
    pub fn group(&self, object: usize) -> Option<usize> {
        number_at(&self.group, object, NO_GROUP)
    }

    /// The pattern group of an object; none for a NonHit, and past the chart.
    pub fn pattern_group(&self, object: usize) -> Option<usize> {
        number_at(&self.pattern_group, object, NO_GROUP)
    }
}

/// What is sure of a note and the next one, whatever deltas inside their ranges they have.
///
/// Two notes are near where their deltas differ by at most the margin. Where they are not, they are a rise if the second
/// delta is above the first plus the margin. Both the difference and the sum are rounded to an f64.
#[derive(Clone, Copy, Debug, PartialEq, Eq, Hash)]
pub enum PairClass {
    /// 0: surely near
    Near,
    /// 1: surely a rise
    Rise,
    /// 2: surely neither
    Neither,
    /// 3: not the same for all such deltas
    Open,
}

/// The number that stands for the class of a NonHit and of the last note, which have none.
pub const NO_PAIR: u8 = 255;

impl PairClass {
    /// The number by which the library tells it.
    pub const fn number(self) -> u8 {
        self as u8
    }

    fn of(number: u8) -> Option<Self> {
        match number {
            0 => Some(PairClass::Near),
            1 => Some(PairClass::Rise),
            2 => Some(PairClass::Neither),
            3 => Some(PairClass::Open),
            NO_PAIR => None,
            _ => unreachable!("the library has no class {number}"),
        }
    }
}

/// Per object what is sure of it and the next note, and its rhythm group, where the groups are sure.
#[derive(Clone, Debug, Default, PartialEq, Eq)]
pub struct Taps {
    /// how many rhythm groups there are; none where they are open
    pub groups: Option<usize>,
    pub(crate) pair: Vec<u8>,
    // empty where the groups are open
    pub(crate) group: Vec<u16>,
}

impl Taps {
    /// The class of a note and the next one, NonHits between them passed over; none for a NonHit, for the last note,
    /// and past the chart.
    pub fn pair(&self, object: usize) -> Option<PairClass> {
        PairClass::of(*self.pair.get(object)?)
    }

    /// The rhythm group of an object; none for a NonHit, past the chart, and where the groups are open.
    pub fn group(&self, object: usize) -> Option<usize> {
        number_at(&self.group, object, NO_GROUP)
    }
}

/// One rhythm group.
#[derive(Clone, Copy, Debug, PartialEq)]
pub struct GroupRecord {
    /// the object that is the group's first note
    pub first_note: usize,
    /// how many notes it has
    pub note_count: usize,
    /// its own interval in milliseconds, a whole number; a group of one note has none
    pub own_interval: Option<f64>,
    /// own interval over that of the group before; 1.0 where either is absent. Two zeros give a NaN.
    pub ratio: f64,
    /// from the start of the group before; 0.0 within the margin, infinity for the first group
    pub interval: f64,
    /// a factor: smaller where an own interval came a few groups before, and for a long group; finite
    pub penalty: f64,
    /// the number of its pattern group
    pub pattern_group: usize,
    /// that one's interval over that of the pattern group before; 1.0 for the first. Two zeros give a NaN.
    pub pattern_ratio: f64,
}
