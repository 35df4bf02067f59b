//! The words of the request for taps, with two loops: one over the pairs, one over what the grouping looks at. It knows
//! nothing of the library.

use crate::plain_rhythm::{near, NO_GROUP};
use crate::taps::{Range, TapChart};

pub const NEAR: u8 = 0;
pub const RISE: u8 = 1;
pub const NEITHER: u8 = 2;
pub const OPEN: u8 = 3;
pub const NO_PAIR: u8 = 255;

/// The later one is above the earlier one by more than the margin.
pub fn rise(a: f64, b: f64, margin: f64) -> bool {
    b > a + margin
}

/// The class of two deltas: near is asked before rise.
pub fn class_of_deltas(a: f64, b: f64, margin: f64) -> u8 {
    if near(a, b, margin) {
        NEAR
    } else if rise(a, b, margin) {
        RISE
    } else {
        NEITHER
    }
}

/// The class that two deltas surely have which lie in these ranges, or that it is open.
pub fn class_of_ranges([al, ah]: Range, [bl, bh]: Range, margin: f64) -> u8 {
    let near = |a, b| near(a, b, margin);
    let rise = |a, b| rise(a, b, margin);
    if near(ah, bl) && near(al, bh) {
        return NEAR;
    }
    if !near(ah, bl) && rise(ah, bl) {
        return RISE;
    }
    let above = bh < al && !near(al, bh);
    let below = ah < bl && !near(ah, bl);
    if (above || below) && !rise(al, bh) {
        return NEITHER;
    }
    OPEN
}

/// How many groups there are, and each object's.
pub struct Groups {
    pub count: u64,
    pub of_object: Vec<u16>,
}

/// What the call tells of an accepted chart.
pub struct Told {
    pub pair: Vec<u8>,
    /// none where a pair that is looked at is open
    pub groups: Option<Groups>,
}

/// A walk through the notes, by the class of each and the next.
struct Walk<'a> {
    class: &'a [u8],
    /// whether a note is the first of its group
    opens: Vec<bool>,
}

impl Walk<'_> {
    /// Whether the last note, which is number i, goes on with its group; none where that is open.
    fn takes_last(&self, i: usize) -> Option<bool> {
        if i < 2 {
            return Some(false);
        }
        match self.class[i - 1] {
            OPEN => None,
            class => Some(class == NEAR),
        }
    }

    /// Where the group that starts at s ends, which is where the next one starts; none where that is open.
    fn end_of_group(&self, s: usize) -> Option<usize> {
        let notes = self.opens.len();
        let mut i = s + 1;
        while i + 1 < notes {
            match self.class[i] {
                NEAR => i += 1,
                RISE => return Some(i + 1),
                NEITHER => return Some(i),
                _ => return None,
            }
        }
        if i == notes {
            return Some(i);
        }
        let taken = self.takes_last(i)?;
        Some(i + usize::from(taken))
    }

    /// To the end, or to the first open pair that is looked at: whether the end was reached.
    fn reaches_end(&mut self) -> bool {
        let mut s = 0;
        while s < self.opens.len() {
            self.opens[s] = true;
            match self.end_of_group(s) {
                Some(end) => s = end,
                None => return false,
            }
        }
        true
    }
}

/// What is told of a chart that is accepted.
pub fn told(chart: &TapChart) -> Told {
    let notes = chart.low.notes();
    let mut pair = vec![NO_PAIR; chart.size()];
    let mut class = Vec::new();
    for two in notes.windows(2) {
        let [a, b] = [two[0], two[1]].map(|object| chart.range(object));
        class.push(class_of_ranges(a, b, chart.low.settings.margin));
        pair[two[0]] = class[class.len() - 1];
    }
    let mut walk = Walk {
        class: &class,
        opens: vec![false; notes.len()],
    };
    let sure = walk.reaches_end();
    let (mut count, mut of_object) = (0, vec![NO_GROUP; chart.size()]);
    for (&object, opens) in notes.iter().zip(walk.opens) {
        count += u64::from(opens);
        of_object[object] = count as u16 - 1;
    }
    Told {
        pair,
        groups: sure.then_some(Groups { count, of_object }),
    }
}
