//! What the original says of a chart, in the library's words.

use host_tests::build::Raw;
use host_tests::chart::Chart;
use host_tests::plain::Answers;
use host_tests::rhythm::Recorded;
use oracle::taiko::difficulty::object::TaikoDifficultyObject;
use oracle::taiko::object::HitType;

/// What the original says of a chart.
pub struct Original {
    pub chart: oracle::chart::Chart,
    pub rhythm: oracle::chart::Rhythm,
}

// Its NaNs are all alike.
fn bits(x: f64) -> u64 {
    if x.is_nan() {
        0x7FF8_0000_0000_0000
    } else {
        x.to_bits()
    }
}

fn kind(hit_type: HitType) -> u8 {
    match hit_type {
        HitType::Center => 0,
        HitType::Rim => 1,
        HitType::NonHit => 2,
    }
}

impl Original {
    pub fn of(chart: &Chart) -> Self {
        let chart =
            oracle::chart::Chart::new(&chart.kind, &chart.start, &chart.delta, &chart.ratio);
        let rhythm = chart.rhythm();
        Original { chart, rhythm }
    }

    /// The chart that it builds itself.
    pub fn built(raw: &Raw) -> Self {
        let chart = oracle::chart::Chart::build(&raw.kind, &raw.time, raw.rate);
        chart.process_color();
        let rhythm = chart.rhythm();
        Original { chart, rhythm }
    }

    /// The lists of its objects.
    pub fn lists(&self) -> Chart {
        let floats = |field: fn(&TaikoDifficultyObject) -> f64| self.chart.each(field);
        Chart {
            kind: self.chart.each(|object| kind(object.base_hit_type)),
            start: floats(|object| object.start_time),
            delta: floats(|object| object.delta_time),
            ratio: floats(|object| object.rhythm_data.ratio),
            ..Chart::default()
        }
    }

    pub fn encoding(&self) -> Answers {
        let encoding = self.chart.encode();
        let column = |k: usize| encoding.rows.iter().map(move |row| row[k]);
        Answers {
            numbers: [0, 1, 2, 3, 4].map(|k| column(k).map(|x| x as u16).collect()),
            interval: column(5).map(|x| x as u8).collect(),
            hit_patterns: encoding.hit_patterns as u64,
        }
    }

    pub fn record(&self, group: usize, window: f64) -> Recorded {
        let record = self.rhythm.record(group, window);
        Recorded {
            refusal: 0,
            place: 0,
            first_note: record.first as u64,
            note_count: record.count as u64,
            has_own: u64::from(record.own.is_some()),
            own_bits: record.own.map_or(0, bits),
            ratio_bits: bits(record.ratio),
            interval_bits: bits(record.interval),
            penalty_bits: bits(record.penalty),
            pattern_group: record.pattern as u64,
            pattern_ratio_bits: bits(record.pattern_ratio),
        }
    }
}
