//! Pairs of charts with a common tail and two openings that cut streaks, patterns and coupled runs at the seam.

use std::fmt;

use crate::chart::Chart;
use crate::samples::Xorshift;
use dresserduck::Settings;

/// Two charts that end with the same kinds, deltas and ratios, for as many objects as `tail` says.
pub struct Pair {
    pub charts: [Chart; 2],
    pub tail: usize,
}

impl fmt::Display for Pair {
    fn fmt(&self, out: &mut fmt::Formatter) -> fmt::Result {
        let [a, b] = &self.charts;
        write!(out, "a common tail of {} in\n{a}\nand in\n{b}", self.tail)
    }
}

const LONGEST_OPENING: usize = 20;
const RATIOS: [f64; 8] = [
    1.0,
    0.5,
    2.0,
    1.0 / 3.0,
    0.99,
    1.01,
    16_777_216.0,
    1.0 / 16_777_216.0,
];

/// Short streaks of unequal lengths, NonHits between some, and a coupled run now and then, mostly at the beginning.
/// Some begin with a handful of objects that are mostly NonHits.
fn tail_kinds(random: &mut Xorshift, n: usize) -> Vec<u8> {
    let lengths = random.pick::<&[usize]>(&[&[1, 2], &[1, 2, 3], &[1, 1, 2, 3, 4], &[1, 5]]);
    let seams = random.pick(&[1_000, 30, 8, 3]);
    let early = random.pick(&[0, 0, 0, 4, 8]);
    let mut kinds: Vec<u8> = (0..early).map(|_| random.pick(&[0, 1, 2, 2, 2])).collect();
    let mut colour = random.below(2) as u8;
    let mut cycle = vec![random.pick(lengths), random.pick(lengths)];
    let mut repeats = random.below(4);
    while kinds.len() < n {
        for &length in &cycle {
            kinds.extend(vec![colour; length]);
            if random.once_in(seams) {
                kinds.extend(vec![2; random.between(1, 2)]);
            } else {
                colour = 1 - colour;
            }
        }
        if repeats == 0 {
            let size = random.between(1, 5);
            cycle = (0..size).map(|_| random.pick(lengths)).collect();
            repeats = random.pick(&[0, 0, 0, 0, 1, 3]);
        } else {
            repeats -= 1;
        }
    }
    kinds.truncate(n);
    kinds
}

/// Nothing, the tail's first kind over, the tail's beginning over and over up to the seam, NonHits, or anything.
fn opening_kinds(random: &mut Xorshift, tail: &[u8]) -> Vec<u8> {
    let size = random.below(LONGEST_OPENING + 1);
    match random.below(8) {
        0 => Vec::new(),
        1 => vec![tail[0]; size.min(4)],
        2..=4 => {
            let period = random.between(1, 12);
            let back = |to_seam: usize| tail[(period - to_seam % period) % period];
            (1..=size).rev().map(back).collect()
        }
        5 => vec![2; size.min(3)],
        _ => (0..size)
            .map(|_| random.pick(&[0, 0, 0, 1, 1, 1, 2]))
            .collect(),
    }
}

fn drawn(random: &mut Xorshift, choices: &[f64], n: usize) -> Vec<f64> {
    (0..n).map(|_| random.pick(choices)).collect()
}

/// Of the last three, the first and the third are near 125.0, and the second is not.
fn times(margin: f64) -> [f64; 8] {
    let beyond = (125.0 + margin).next_up();
    let [from, to] = [125.0 - margin, 125.0 + margin];
    [0.0, -0.0, 125.0, 16_777_216.0, -333.25, from, beyond, to]
}

/// The opening before the tail; starts are drawn anew, and so is all of the opening.
fn behind(random: &mut Xorshift, opening: &[u8], tail: &Chart) -> Chart {
    let (before, n) = (opening.len(), opening.len() + tail.size());
    let joined = |front: Vec<f64>, back: &[f64]| [front, back.to_vec()].concat();
    let times = times(tail.settings.margin);
    Chart {
        kind: [opening, &tail.kind].concat(),
        start: drawn(random, &times, n),
        delta: joined(drawn(random, &times, before), &tail.delta),
        ratio: joined(drawn(random, &RATIOS, before), &tail.ratio),
        settings: tail.settings,
    }
}

/// A tail of 20 to 200 objects, or more where a hit pattern is searched far back, behind two openings of 0 to 20 that differ in
/// kinds. Both charts are asked under these settings.
pub fn random_pair(random: &mut Xorshift, settings: Settings) -> Pair {
    let n = random.between(20, 200.max(8 * settings.search_limit as usize));
    let mut tail = Chart::of_kinds(tail_kinds(random, n)).under(settings);
    let few = random.pick::<&[f64]>(&[&RATIOS, &RATIOS[..3], &RATIOS[3..6]]);
    tail.ratio = drawn(random, few, n);
    tail.delta = drawn(random, &times(settings.margin), n);
    let first = opening_kinds(random, &tail.kind);
    let mut second = opening_kinds(random, &tail.kind);
    while second == first {
        second = opening_kinds(random, &tail.kind);
    }
    let charts = [first, second].map(|opening| behind(random, &opening, &tail));
    Pair { charts, tail: n }
}
