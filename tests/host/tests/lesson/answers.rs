//! What is told of lessons that are accepted: the means of stretches by themselves, whatever the chart, the settings
//! and the other pairs.

use host_tests::chart::Chart;
use host_tests::check_colour::{check_values, roomy};
use host_tests::colour::stretch;
use host_tests::lesson::{
    answered, answered_by, lesson, roomy_sizes, some_pairs, Lessoned, Marked, Memory,
};
use host_tests::plain_lesson::{objects, Pair, Refused, Told};
use host_tests::samples::{biased_chart, ratios, repeated, Xorshift};
use host_tests::sets::drawn_settings;
use host_tests::LARGEST_CHART;

use crate::side_by_side;

/// What the call stretch tells of a pair by itself: mean, by its bits, and tenths, or the refusal.
fn alone(chart: &Chart, pair: Pair) -> Result<(u64, i64), u64> {
    let objects = objects(pair, chart.size()).expect("objects of the chart");
    let got = stretch(chart, objects.start, objects.end, &mut roomy(chart.size()));
    match got.refusal {
        0 => Ok((got.mean.to_bits(), got.tenths)),
        refusal => Err(refusal),
    }
}

/// The lesson answers as the plain version does, and tells of each pair what stretch does; or the first that stretch
/// refuses is refused.
#[track_caller]
fn check(chart: &Chart, pairs: &[Pair]) -> Result<Told, Refused> {
    let told = answered(&Marked::new(chart, pairs));
    for (pair, at) in pairs.iter().zip(0..) {
        match (alone(chart, *pair), &told) {
            (Ok(alone), Ok(told)) => {
                let of_lesson = (told.mean[at].to_bits(), told.tenths[at]);
                assert_eq!(of_lesson, alone, "{pair:?} of {chart}");
            }
            (Ok(_), Err(first)) => assert!(at < first.1 as usize, "{at}: {first:?} of {chart}"),
            (Err(refusal), told) => {
                let first = Err((refusal, at as u64));
                assert_eq!(told, &first, "{pair:?} of {chart}");
                break;
            }
        }
    }
    told
}

/// d and k in turn, with NonHits between: each stretch by its notes' own values.
#[test]
fn means_are_of_each_pairs_own_notes() {
    let chart = Chart::of_text("nndknkn");
    let values = check_values(&chart);
    let pairs = [(0, 7), (1, 2), (2, 2), (3, 2), (4, 2), (5, 1)];
    let notes: [&[usize]; 6] = [&[2, 3, 5], &[2], &[2, 3], &[3], &[5], &[5]];
    let told = check(&chart, &pairs).unwrap();
    let mean = |notes: &[usize]| {
        let sum = notes.iter().fold(0.0, |sum, &note| sum + values[note]);
        sum / notes.len() as f64
    };
    assert_eq!(told.mean, notes.map(mean));
}

/// The scope's value of one note, and a mean half-way between two tenths.
#[test]
fn means_and_tenths_as_written() {
    let told = check(&Chart::of_text("d"), &[(0, 1)]).unwrap();
    assert_eq!(told.mean[0].to_bits(), 0x4013_ee42_c838_4268);
    assert_eq!(told.tenths, [50]);
    for (ratio, mean, tenths) in [
        (0x4022_FAA8_E5E7_E3F9, 0.75, 8),
        (0x4026_FE38_4CA2_A152, 0.25, 2),
        (0x402B_01C7_B35D_5EAD, -0.25, -2),
        (0x402F_0557_1A18_1C06, -0.75, -8),
    ] {
        let mut chart = Chart::of_text("dkkdk");
        chart.ratio = vec![f64::from_bits(ratio); 5];
        let told = check(&chart, &[(0, 4), (1, 3), (4, 1)]).unwrap();
        assert_eq!((told.mean[0], told.tenths[0]), (mean, tenths));
    }
}

/// The sum begins with 0.0 for every pair.
#[test]
fn notes_of_minus_zero_have_the_mean_zero() {
    let mut chart = Chart::of_text("dndd");
    chart.ratio = vec![4.0; 4];
    let minus_zero = (-0.0f64).to_bits();
    assert_eq!(check_values(&chart)[2].to_bits(), minus_zero);
    let told = check(&chart, &[(0, 1), (1, 2), (2, 2), (3, 1)]).unwrap();
    assert_eq!([1, 2, 3].map(|pair| told.mean[pair].to_bits()), [0; 3]);
}

#[test]
fn from_none_to_the_most_pairs_are_answered() {
    for n in [32, 33, 64, 200, LARGEST_CHART] {
        let chart = repeated("dkkdd", n);
        for count in [0, 1, 2, 16, 31, 32] {
            // one object each; each over the next two, where there is room; each up to the end; the last objects
            let to_end = (0..count as u64).map(|offset| (offset, n as u64 - offset));
            let last = (n - count..n).map(|offset| (offset as u64, 1));
            let (single, over) = (
                side_by_side(count, 1),
                side_by_side(count, 3.min(n as u64 - 31)),
            );
            for pairs in [single, over, to_end.collect(), last.collect()] {
                let told = check(&chart, &pairs).unwrap();
                assert_eq!((told.mean.len(), told.tenths.len()), (count, count));
            }
        }
    }
}

/// No objects: the one lesson that is good has no pairs. Empty slices that point at no memory will do, and roomy ones
/// are left alone.
#[test]
fn no_objects() {
    let none = Marked::new(&Chart::of_text(""), &[]);
    assert_eq!(answered(&none), Ok(Told::default()));
    for lent in [Memory::dangling(), Memory::of_sizes([6; 5], 0, 0)] {
        let mut memory = lent.clone();
        assert_eq!(lesson(&none, &mut memory), Lessoned::default());
        assert_eq!(memory.bits(), lent.bits());
    }
}

/// No pairs: the values are filled by the call, and the means' slices left alone.
#[test]
fn no_pairs() {
    for n in [1, 2, 9, LARGEST_CHART] {
        let chart = Chart::of_size(n);
        let mut memory = Memory::of_sizes(roomy_sizes(n, 0), n, 0);
        let before = memory.bits();
        let done = lesson(&Marked::new(&chart, &[]), &mut memory);
        assert_eq!(done, Lessoned::default(), "{n}");
        let [_, mean, tenths, ..] = memory.bits();
        assert_eq!([&mean, &tenths], [&before[1], &before[2]], "{n}");
        assert_eq!(memory.value.lent()[..n], check_values(&chart), "{n}");
    }
}

/// Offsets that rise, all of notes or of any objects, and lengths of all sorts.
fn drawn_pairs(random: &mut Xorshift, chart: &Chart) -> Vec<Pair> {
    let n = chart.size();
    let objects = match random.once_in(3) {
        true => (0..n).collect(),
        false => chart.notes(),
    };
    let count = random.pick(&[0, 1, 2, 3, 8, 31, 32]).min(objects.len());
    let mut firsts: Vec<usize> = objects;
    while firsts.len() > count {
        firsts.remove(random.below(firsts.len()));
    }
    let longest = random.pick(&[1, 4, 40, n]);
    let pair = |first: usize, random: &mut Xorshift| {
        let left = n - first;
        let length = match random.below(6) {
            0 => 1,
            1 => left,
            _ => random.between(1, longest.min(left)),
        };
        (first as u64, length as u64)
    };
    firsts
        .into_iter()
        .map(|first| pair(first, random))
        .collect()
}

/// How often the random lessons have what is worth trying; no claim may be an empty one.
#[derive(Debug, Default)]
struct Seen {
    accepted: usize,
    silent: usize,
    most: usize,
    one_fewer: usize,
    // of accepted lessons: pairs that reach into the next, that end with the chart, and that have a mean below zero
    overlapping: usize,
    ending: usize,
    negative: usize,
}

impl Seen {
    fn count(&mut self, n: usize, pairs: &[Pair], told: &Result<Told, Refused>) {
        let Ok(told) = told else {
            self.silent += 1;
            return;
        };
        self.accepted += 1;
        self.most += usize::from(pairs.len() == 32);
        self.one_fewer += usize::from(pairs.len() == 31);
        let end = |pair: &Pair| pair.0 + pair.1;
        let over = |two: &&[Pair]| end(&two[0]) > two[1].0;
        self.overlapping += pairs.windows(2).filter(over).count();
        self.ending += pairs.iter().filter(|pair| end(pair) == n as u64).count();
        self.negative += told.mean.iter().filter(|&&mean| mean < 0.0).count();
    }
}

#[test]
fn random_lessons_on_random_charts() {
    let mut random = Xorshift::new(0x1E55);
    let mut seen = Seen::default();
    for round in 0..4_000 {
        let n = random.below(160);
        let mut chart = biased_chart(&mut random, n);
        chart.ratio = ratios(&mut random, n);
        if round % 2 == 1 {
            chart.settings = drawn_settings(&mut random);
        }
        let pairs = drawn_pairs(&mut random, &chart);
        let told = check(&chart, &pairs);
        seen.count(n, &pairs, &told);
    }
    println!("{seen:?}");
    let Seen {
        accepted,
        silent,
        most,
        one_fewer,
        overlapping,
        ending,
        negative,
    } = seen;
    assert!(accepted > 3_000 && silent > 150, "{seen:?}");
    assert!(most > 300 && one_fewer > 300, "{seen:?}");
    let often = [overlapping, ending, negative];
    assert!(often.iter().all(|&pairs| pairs > 5_000), "{seen:?}");
}

#[test]
fn random_largest_charts() {
    let mut random = Xorshift::new(0x1E56);
    for round in 0..12 {
        let n = LARGEST_CHART - round % 2;
        let mut chart = biased_chart(&mut random, n).under(drawn_settings(&mut random));
        chart.ratio = ratios(&mut random, n);
        let pairs = drawn_pairs(&mut random, &chart);
        check(&chart, &pairs).ok();
        check(&chart, &some_pairs(&chart, n)).unwrap();
    }
}

/// The pairs beside it move nothing of what is told of a pair.
#[test]
fn the_other_pairs_play_no_part() {
    let mut random = Xorshift::new(0x1E57);
    for _ in 0..200 {
        let n = random.between(40, 120);
        let chart = biased_chart(&mut random, n);
        let values = check_values(&chart);
        let pairs = some_pairs(&chart, random.between(1, n));
        let all = answered_by(&Marked::new(&chart, &pairs), &values).unwrap();
        for left_out in 0..pairs.len() {
            let mut rest = pairs.clone();
            rest.remove(left_out);
            let got = answered_by(&Marked::new(&chart, &rest), &values).unwrap();
            let mut want = all.clone();
            want.mean.remove(left_out);
            want.tenths.remove(left_out);
            assert_eq!(got, want, "{rest:?} of {chart}");
        }
    }
}
