//! The scope's encoder, sentence by sentence over lists of lists. It knows nothing of the library.

pub const NON_HIT: u8 = 2;

/// The six numbers of every object, and how many hit patterns there are.
#[derive(Debug, PartialEq, Eq)]
pub struct Answers {
    /// Numbers of streaks, of alternating patterns (at 2) and of hit patterns (at 4); between them the places within the next level.
    pub numbers: [Vec<u16>; 5],
    pub interval: Vec<u8>,
    pub hit_patterns: u64,
}

struct Streak {
    kind: u8,
    length: usize,
}

type Pattern = Vec<Streak>;
type HitPattern = Vec<Pattern>;

/// Whether each object continues the open streak: it is not the first, and the note numbered note_idx - 1 has its kind.
pub fn continues(kinds: &[u8]) -> Vec<bool> {
    let mut notes: Vec<u8> = Vec::new();
    let mut answers = Vec::new();
    for &kind in kinds {
        let previous_note = match kind {
            NON_HIT => None,
            _ => notes.last().copied(),
        };
        answers.push(previous_note == Some(kind));
        if kind != NON_HIT {
            notes.push(kind);
        }
    }
    answers
}

fn streaks(kinds: &[u8]) -> Vec<Streak> {
    let mut streaks: Vec<Streak> = Vec::new();
    for (&kind, goes_on) in kinds.iter().zip(continues(kinds)) {
        match streaks.last_mut() {
            Some(open) if goes_on => open.length += 1,
            _ => streaks.push(Streak { kind, length: 1 }),
        }
    }
    streaks
}

fn patterns(streaks: Vec<Streak>) -> Vec<Pattern> {
    let mut patterns: Vec<Pattern> = Vec::new();
    for streak in streaks {
        match patterns.last_mut() {
            Some(open) if open[open.len() - 1].length == streak.length => open.push(streak),
            _ => patterns.push(vec![streak]),
        }
    }
    patterns
}

fn is_coupled(patterns: &[Pattern], i: usize) -> bool {
    let (this, Some(other)) = (&patterns[i], patterns.get(i + 2)) else {
        return false;
    };
    this[0].length == other[0].length && this.len() == other.len() && this[0].kind == other[0].kind
}

/// How many patterns the hit pattern holds that opens with pattern i.
fn hit_size(patterns: &[Pattern], i: usize) -> usize {
    let coupled = (i..patterns.len())
        .take_while(|&j| is_coupled(patterns, j))
        .count();
    match coupled {
        0 => 1,
        _ => coupled + 2,
    }
}

fn hit_patterns(patterns: Vec<Pattern>) -> Vec<HitPattern> {
    let mut sizes = Vec::new();
    let mut i = 0;
    while i < patterns.len() {
        let size = hit_size(&patterns, i);
        sizes.push(size);
        i += size;
    }
    let mut rest = patterns.into_iter();
    let hits = sizes
        .into_iter()
        .map(|size| rest.by_ref().take(size).collect());
    hits.collect()
}

fn is_match(a: &HitPattern, b: &HitPattern) -> bool {
    let mut firsts = a.iter().zip(b).take(2);
    a.len() == b.len() && firsts.all(|(x, y)| x[0].length == y[0].length)
}

fn interval(hits: &[HitPattern], h: usize, search_limit: u64) -> u8 {
    let is_found = |&k: &usize| h >= k && is_match(&hits[h], &hits[h - k]);
    let found = (1..search_limit as usize).find(is_found);
    found.map_or(search_limit as u8 + 1, |k| k as u8)
}

/// Numbers streaks and patterns through the chart and places within their parents, object by object.
pub fn encode(kinds: &[u8], search_limit: u64) -> Answers {
    let hits = hit_patterns(patterns(streaks(kinds)));
    let mut rows: Vec<[usize; 5]> = Vec::new();
    let mut intervals = Vec::new();
    let (mut streak_number, mut pattern_number) = (0, 0);
    for (h, hit) in hits.iter().enumerate() {
        for (pattern_place, pattern) in hit.iter().enumerate() {
            for (streak_place, streak) in pattern.iter().enumerate() {
                let row = [
                    streak_number,
                    streak_place,
                    pattern_number,
                    pattern_place,
                    h,
                ];
                rows.extend(vec![row; streak.length]);
                intervals.extend(vec![interval(&hits, h, search_limit); streak.length]);
                streak_number += 1;
            }
            pattern_number += 1;
        }
    }
    let column = |c: usize| rows.iter().map(|row| row[c] as u16).collect();
    Answers {
        numbers: [0, 1, 2, 3, 4].map(column),
        interval: intervals,
        hit_patterns: hits.len() as u64,
    }
}
