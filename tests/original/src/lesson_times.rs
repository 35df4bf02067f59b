//! What a lesson of as many pairs as there may be saves, by the time of the calls that say the same.

use std::array;
use std::hint::black_box;

use dresserduck::{calls, Chart, Settings};

use crate::timing::medians;

const PAIRS: usize = 32;
const BASE: Settings = Settings::DEFAULT;

/// A lesson, and the memory for lesson, stretch and colour.
struct Room {
    offset: [u64; PAIRS],
    length: [u64; PAIRS],
    value: Vec<f64>,
    mean: [f64; PAIRS],
    tenths: [i64; PAIRS],
    work: Vec<u16>,
    scratch: Vec<f64>,
}

impl Room {
    /// For charts of n objects; the stretches begin at even distances, and overlap by half.
    fn new(n: usize) -> Self {
        let end = |i: usize| (n * i / PAIRS).min(n) as u64;
        Room {
            offset: array::from_fn(end),
            length: array::from_fn(|i| end(i + 2) - end(i)),
            value: vec![0.0; n],
            mean: [0.0; PAIRS],
            tenths: [0; PAIRS],
            work: vec![0; 8 * n],
            scratch: vec![0.0; n],
        }
    }

    fn lesson(&mut self, chart: &Chart) {
        let answer = calls::lesson(
            chart,
            BASE,
            &self.offset,
            &self.length,
            &mut self.value,
            &mut self.mean,
            &mut self.tenths,
            &mut self.work,
            &mut self.scratch,
        );
        assert_eq!(answer.refusal, 0, "a good lesson");
    }

    fn stretches(&mut self, chart: &Chart) {
        for pair in 0..PAIRS {
            let a = self.offset[pair] as usize;
            let b = a + self.length[pair] as usize;
            let (value, work) = (&mut self.value, &mut self.work);
            let answer = calls::stretch(chart, BASE, a, b, value, work, &mut self.scratch);
            assert_eq!(answer.refusal, 0, "a good stretch");
            (self.mean[pair], self.tenths[pair]) = (answer.mean, answer.tenths);
        }
    }

    fn colour(&mut self, chart: &Chart) {
        let (value, work) = (&mut self.value, &mut self.work);
        let answer = calls::colour(chart, BASE, value, work, &mut self.scratch);
        assert_eq!(answer.refusal, 0, "a good chart");
    }
}

/// On charts of one size, how often the time of a lesson is in that of a stretch for each of its pairs, and its time in percent of that
/// of one call of colour.
pub fn lesson_ratios(charts: &[Chart]) -> [f64; 2] {
    let asking = |call: fn(&mut Room, &Chart)| {
        let mut room = Room::new(charts[0].len());
        move || {
            for chart in charts {
                call(&mut room, black_box(chart));
                black_box(&mut room);
            }
        }
    };
    let lesson = || asking(Room::lesson);
    let [each, together] = medians(&mut asking(Room::stretches), &mut lesson());
    let [colour, all] = medians(&mut asking(Room::colour), &mut lesson());
    [each / together, 100.0 * all / colour]
}
