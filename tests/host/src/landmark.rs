//! The scope's colour landmarks, read sentence by sentence from the plain encoder's numbers of one chart.

use crate::chart::Chart;
use crate::plain;

const NON_HIT: u8 = 2;

struct Streak {
    first: usize,
    length: usize,
    kind: u8,
}

/// Where it lies among the streaks.
struct Pattern {
    first: usize,
    count: usize,
}

struct Reading<'a> {
    kinds: &'a [u8],
    streaks: Vec<Streak>,
    patterns: Vec<Pattern>,
}

/// The places at which the numbers change, the first one included.
fn openings(numbers: &[u16]) -> Vec<usize> {
    let opens = |&i: &usize| i == 0 || numbers[i] != numbers[i - 1];
    (0..numbers.len()).filter(opens).collect()
}

/// From each opening to the next one or the end: the first and how many.
fn runs(openings: &[usize], end: usize) -> Vec<(usize, usize)> {
    let ends = openings.iter().skip(1).chain([&end]);
    let pairs = openings.iter().zip(ends);
    pairs.map(|(&first, &next)| (first, next - first)).collect()
}

impl<'a> Reading<'a> {
    fn new(chart: &'a Chart) -> Self {
        let kinds = chart.kind.as_slice();
        let [streak, _, pattern, _, _] = plain::encode(kinds, chart.settings.search_limit).numbers;
        let streak_firsts = openings(&streak);
        let by_streak: Vec<u16> = streak_firsts.iter().map(|&first| pattern[first]).collect();
        let streaks = runs(&streak_firsts, kinds.len()).into_iter();
        let patterns = runs(&openings(&by_streak), by_streak.len()).into_iter();
        Reading {
            kinds,
            streaks: streaks
                .map(|(first, length)| Streak {
                    first,
                    length,
                    kind: kinds[first],
                })
                .collect(),
            patterns: patterns
                .map(|(first, count)| Pattern { first, count })
                .collect(),
        }
    }

    fn is_coupled(&self, i: usize) -> bool {
        let Some(other) = self.patterns.get(i + 2) else {
            return false;
        };
        let this = &self.patterns[i];
        let (a, b) = (&self.streaks[this.first], &self.streaks[other.first]);
        a.length == b.length && this.count == other.count && a.kind == b.kind
    }

    /// (a): the streak opens in the tail, where at least one note precedes it.
    fn has_note_before(&self, streak: usize, tail_start: usize) -> bool {
        let first = self.streaks[streak].first;
        (tail_start..first).any(|object| self.kinds[object] != NON_HIT)
    }

    /// (b): the pattern opens with a streak that differs in length from its neighbour before,
    /// and that neighbour is the streak of an (a) or a later one.
    fn is_opened(&self, pattern: usize, tail_start: usize) -> bool {
        let second = self.patterns[pattern].first;
        let Some(first) = second.checked_sub(1) else {
            return false;
        };
        self.streaks[first].length != self.streaks[second].length
            && (0..=first).any(|streak| self.has_note_before(streak, tail_start))
    }

    /// Just after the pattern's last object.
    fn end(&self, pattern: usize) -> usize {
        let Pattern { first, count } = self.patterns[pattern];
        let last = &self.streaks[first + count - 1];
        last.first + last.length
    }

    /// (c): two neighbouring uncoupled patterns from an opened one on.
    fn landmarks(&self, tail_start: usize) -> Vec<usize> {
        let seconds = (1..self.patterns.len()).filter(|&second| {
            let first = second - 1;
            !self.is_coupled(first)
                && !self.is_coupled(second)
                && (0..=first).any(|pattern| self.is_opened(pattern, tail_start))
        });
        seconds.map(|second| self.end(second)).collect()
    }
}

/// The landmarks of the tail that begins at object `tail_start`, each by the object that follows it, or n at the end.
pub fn colour_landmarks(chart: &Chart, tail_start: usize) -> Vec<usize> {
    Reading::new(chart).landmarks(tail_start)
}
