//! Charts and raw objects to try, drawn from a seed.

use crate::build::Raw;
use crate::chart::Chart;
use crate::faults::BOUND;
use crate::taps::TapChart;

pub use crate::xorshift::Xorshift;

/// Notes that change colour from streak to streak, with NonHits at the seams now and then.
struct Writer<'a> {
    random: &'a mut Xorshift,
    kinds: Vec<u8>,
    colour: u8,
    // a NonHit at one seam in so many; none for 0
    seams: usize,
}

impl Writer<'_> {
    fn streak(&mut self, length: usize) {
        self.kinds.extend(vec![self.colour; length]);
        if self.seams > 0 && self.random.once_in(self.seams) {
            self.kinds.push(2);
        }
        // now and then the same colour again, so that a NonHit stands inside a run of one colour
        if self.seams == 0 || !self.random.once_in(self.seams) {
            self.colour = 1 - self.colour;
        }
    }

    /// Two lengths in turn, each some streaks long: a coupled run where the streak counts stay and the colours come round.
    fn coupled_run(&mut self, lengths: &[usize]) {
        let (a, b) = (self.random.pick(lengths), self.random.pick(lengths));
        let (a_count, b_count) = (self.random.between(1, 3), self.random.between(1, 3));
        for _ in 0..self.random.between(2, 5) {
            (0..a_count).for_each(|_| self.streak(a));
            (0..b_count).for_each(|_| self.streak(b));
        }
    }

    /// Different lengths one after the other, a few times over: their number is the interval that comes out.
    fn cycle(&mut self) {
        let period = self.random.between(3, 17);
        for _ in 0..self.random.between(2, 3) {
            (1..=period).for_each(|length| self.streak(length));
        }
    }

    fn part(&mut self, lengths: &[usize]) {
        match self.random.below(10) {
            0..=5 => self.coupled_run(lengths),
            6 => self.cycle(),
            7 => {
                let length = self.random.between(20, 150);
                self.streak(length);
            }
            8 => (0..self.random.between(1, 4)).for_each(|_| self.kinds.push(2)),
            _ => {
                for _ in 0..self.random.between(1, 20) {
                    let kind = self.random.below(3) as u8;
                    self.kinds.push(kind);
                }
            }
        }
    }
}

/// Streaks of the lengths 1 to `period`, twice over, colours in turn. From 3 on no pattern is coupled: each streak is a hit pattern of
/// its own, and its like stands `period` hit patterns before.
pub fn rounds(period: usize) -> Vec<u8> {
    let lengths = (1..=period).chain(1..=period);
    let streaks = lengths
        .enumerate()
        .map(|(i, length)| vec![(i % 2) as u8; length]);
    streaks.collect::<Vec<_>>().concat()
}

/// All strings over d, k, n of this length.
pub fn strings(length: u32) -> impl Iterator<Item = Vec<u8>> {
    (0..3_usize.pow(length)).map(move |number| {
        let digit = |place| (number / 3_usize.pow(place) % 3) as u8;
        (0..length).map(digit).collect()
    })
}

/// The same letters over and over, up to n objects.
pub fn repeated(text: &str, n: usize) -> Chart {
    let motif = Chart::of_text(text).kind;
    Chart::of_kinds(motif.into_iter().cycle().take(n).collect())
}

/// A chart of n objects with many coupled runs, long streaks and NonHits at seams.
pub fn biased_chart(random: &mut Xorshift, n: usize) -> Chart {
    let palette: &[&[usize]] = &[&[1, 2], &[1, 2, 3], &[1, 3, 4, 7], &[2, 5], &[1, 2, 12]];
    let lengths = random.pick(palette);
    let seams = random.pick(&[0, 0, 2, 10, 40]);
    let colour = random.below(2) as u8;
    let mut writer = Writer {
        random,
        kinds: Vec::new(),
        colour,
        seams,
    };
    while writer.kinds.len() < n {
        writer.part(lengths);
    }
    writer.kinds.truncate(n);
    Chart::of_kinds(writer.kinds)
}

/// Other starts, deltas and ratios, all within the limits; no answer of encode may change with them.
pub fn scatter(random: &mut Xorshift, chart: &mut Chart) {
    let times = [
        0.0,
        -0.0,
        16_777_216.0,
        -16_777_216.0,
        0.1,
        -333.25,
        f64::MIN_POSITIVE,
    ];
    let ratios = [1.0, 0.75, 2.0, 16_777_216.0, 1.0 / 16_777_216.0];
    for object in 0..chart.size() {
        chart.start[object] = random.pick(&times);
        chart.delta[object] = random.pick(&times);
        chart.ratio[object] = random.pick(&ratios);
    }
}

/// Ratios that come again, about the tolerance apart, or at the limits.
pub fn ratios(random: &mut Xorshift, n: usize) -> Vec<f64> {
    let common = [
        1.0,
        0.5,
        2.0,
        1.0 / 3.0,
        4.0 / 3.0,
        0.99,
        1.01,
        2f64.powi(-24),
        2f64.powi(24),
    ];
    (0..n).map(|_| random.pick(&common)).collect()
}

/// Deltas around the margin, about zero, or off a beat.
fn deltas(random: &mut Xorshift, n: usize) -> Vec<f64> {
    let style = random.below(4);
    let mut last = 100.0;
    let mut next = |_| {
        let small = [0.0, -0.0, 0.25, -0.5, 2.5, 5.0, -5.0, 7.0];
        last = match style {
            0 => random.pick(&small),
            1 => last + random.pick(&[0.0, 5.0, -5.0, 5.5, -5.5, 2.5, -2.5]),
            2 => random.pick(&[100.0, 101.0, 103.0, 105.0, 107.0, 150.0]),
            _ => {
                random.pick(&[75.0, 75.0, 90.0, 100.0, 110.0, 150.0])
                    + random.pick(&[0.0, 0.5, 1.0])
            }
        };
        last
    };
    (0..n).map(&mut next).collect()
}

/// Starts that rise by the deltas, fall by them, or stand close together.
fn starts(random: &mut Xorshift, deltas: &[f64]) -> Vec<f64> {
    let style = random.below(3);
    let mut now = 0.0;
    let mut next = |delta: &f64| {
        now = match style {
            0 => now + delta,
            1 => now - delta,
            _ => random.pick(&[0.0, 5.0, 7.0, -3.0]),
        }
        .clamp(-16_777_216.0, 16_777_216.0);
        now
    };
    deltas.iter().map(&mut next).collect()
}

/// The same kinds, with other deltas and starts.
pub fn rhythmic_chart(random: &mut Xorshift, n: usize) -> Chart {
    let mut chart = biased_chart(random, n);
    chart.delta = deltas(random, n);
    chart.start = starts(random, &chart.delta);
    chart
}

/// How much room a range has: none, a few f64s, or some milliseconds, for a few objects of a chart or for most.
fn room(random: &mut Xorshift, style: usize, low: f64) -> f64 {
    let steps = random.pick(&[0.0, 1.0, 4.0]) * low.abs() * f64::EPSILON;
    match style {
        0 => random.pick(&[0.0, 0.0, 0.25, 1.0]),
        1 => steps,
        2 if random.once_in(40) => random.pick(&[5.0, 11.0, 300.0]),
        3 => random.pick(&[0.0, 2.0, 5.0, 10.0]),
        _ => 0.0,
    }
}

/// The same with ranges.
pub fn tap_chart(random: &mut Xorshift, n: usize) -> TapChart {
    let low = rhythmic_chart(random, n);
    ranges_above(random, &low)
}

/// Ranges that begin at the chart's deltas: how wide they are tells how often the groups are open. Those of NonHits are anything.
pub fn ranges_above(random: &mut Xorshift, low: &Chart) -> TapChart {
    let mut chart = TapChart::exact(low);
    let style = random.below(5);
    for (object, &least) in low.delta.iter().enumerate() {
        let room = room(random, style, least);
        chart.highest[object] = (least + room).min(BOUND);
        if low.kind[object] == 2 {
            chart.low.delta[object] = random.pick(&[-BOUND, least]);
            chart.highest[object] = random.pick(&[BOUND, least]);
        }
    }
    chart
}

/// A chart as it may be known, with a range about each of its deltas.
pub fn known_about(random: &mut Xorshift, chart: &Chart) -> TapChart {
    let mut known = TapChart::exact(chart);
    let style = random.below(5);
    for (object, &delta) in chart.delta.iter().enumerate() {
        known.low.delta[object] = (delta - room(random, style, delta)).max(-BOUND);
        known.highest[object] = (delta + room(random, style, delta)).min(BOUND);
    }
    known
}

/// Raw objects that are written one after the other, at times about zero.
struct Beats<'a> {
    random: &'a mut Xorshift,
    times: Vec<f64>,
    now: f64,
    step: f64,
}

/// So near that at rate 0.25, too, no start and no delta is too far.
const FARTHEST: f64 = 1_048_576.0;

impl Beats<'_> {
    /// The next object, this long after the last; from zero where that is too far.
    fn after(&mut self, step: f64) {
        let next = self.now + step;
        self.now = if next.abs() > FARTHEST { 0.0 } else { next };
        self.step = step;
        self.times.push(self.now);
    }

    /// Steps of common lengths, or one back in time.
    fn rhythm(&mut self) {
        let beat = self.random.pick(&[96.0, 125.0, 150.0, 333.25, -75.0]);
        for _ in 0..self.random.between(1, 6) {
            let part = self.random.pick(&[1.0, 1.0, 0.5, 2.0, 3.0, 1.5, 0.25, 0.1]);
            self.after(beat * part);
        }
    }

    /// From a whole millisecond a step, and one whose quotient lies halfway between two common ratios, or nearly so.
    fn tie(&mut self) {
        let halves = [1.125, 1.375, 1.75, 2.5, 0.9, 5.0 / 12.0, 7.0 / 12.0];
        let quotient = self.random.pick(&halves);
        let whole = 8.0 * self.random.between(1, 60) as f64;
        self.after(self.now.round() - self.now);
        self.after(whole);
        self.after(whole * quotient);
    }

    /// A tiny step up to zero, and one about 2^51 to 2^60 times as long, either way. Around these quotients the distances from
    /// the common ratios round to a few values.
    fn leap(&mut self) {
        let exponent = self.random.between(51, 60) as i32;
        let digits = 1.0 + self.random.pick(&[0.0, 1.0, 2.0, 3.0, 5.0]) * f64::EPSILON;
        let sign = self.random.pick(&[1.0, -1.0]);
        let tiny = 2f64.powi(19 - exponent);
        self.times.extend([-tiny, 0.0]);
        self.now = 0.0;
        self.after(sign * digits * 2f64.powi(19));
    }

    fn part(&mut self) {
        match self.random.below(8) {
            0..=3 => self.rhythm(),
            4 => (0..self.random.between(1, 3)).for_each(|_| self.after(0.0)),
            5 => self.after(-self.step),
            6 => self.tie(),
            _ => self.leap(),
        }
    }
}

/// From 0.25 to 4.0, mostly one that players know.
fn rate(random: &mut Xorshift) -> f64 {
    let drawn = 0.25 + 3.75 * random.below(1 << 30) as f64 / (1 << 30) as f64;
    random.pick(&[0.25, 4.0, 0.75, 1.0, 1.0, 1.5, 1.5, drawn, drawn])
}

/// One value that is refused, unless it stands where it isn't read.
fn spoil(random: &mut Xorshift, raw: &mut Raw) {
    let object = random.below(raw.kind.len().max(1));
    let times = [f64::NAN, f64::INFINITY, f64::MIN, -67_108_865.0];
    match (random.below(4), raw.kind.get_mut(object)) {
        (1, Some(kind)) => *kind = 3,
        (2 | 3, Some(_)) => raw.time[object] = random.pick(&times),
        _ => raw.rate = random.pick(&[0.0, -1.0, 4.5, f64::NAN, f64::INFINITY]),
    }
}

/// m raw objects, which build a chart but for one time in sixteen: rhythms, objects at one time, times that fall, and deltas whose
/// quotients lie between two common ratios or far from all.
pub fn raw_chart(random: &mut Xorshift, m: usize) -> Raw {
    let kind = biased_chart(random, m).kind;
    let rate = rate(random);
    let mut beats = Beats {
        random,
        times: Vec::new(),
        now: 0.0,
        step: 0.0,
    };
    while beats.times.len() < m {
        beats.part();
    }
    let mut time = beats.times;
    time.truncate(m);
    let mut raw = Raw { kind, time, rate };
    if random.once_in(16) {
        spoil(random, &mut raw);
    }
    raw
}
