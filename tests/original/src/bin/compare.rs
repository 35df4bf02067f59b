//! Draws charts, and raw objects to build charts of, from a seed and compares what the library and the original say of them, until so
//! many objects were asked about.

use std::env;

use host_tests::chart::Chart;
use host_tests::samples::{ratios, raw_chart, rhythmic_chart, Xorshift};
use host_tests::LARGEST_CHART;
use original_tests::answers::{compare, Asked};
use original_tests::built::compare_built;
use original_tests::original::Original;

/// Mostly short charts, some of thousands of objects, now and then one of the largest size.
fn size(random: &mut Xorshift) -> usize {
    match random.below(2_000) {
        0 => LARGEST_CHART - random.below(2),
        1..=20 => random.below(4_000),
        21..=600 => random.below(300),
        _ => random.below(40),
    }
}

fn drawn(random: &mut Xorshift) -> Chart {
    let n = size(random);
    let mut chart = rhythmic_chart(random, n);
    chart.ratio = ratios(random, n);
    chart
}

/// A chart as it is drawn, or one that is built of raw objects.
fn asked(random: &mut Xorshift, built: bool) -> Asked {
    if built {
        let m = size(random) + 2;
        return compare_built(&raw_chart(random, m), random);
    }
    let chart = drawn(random);
    compare(&chart, &Original::of(&chart), random)
}

fn argument(place: usize, name: &str) -> u64 {
    let word = env::args().nth(place);
    let number = word.as_deref().and_then(|word| word.parse().ok());
    number.unwrap_or_else(|| panic!("usage: compare SEED OBJECTS ({name} is no number)"))
}

fn main() {
    let (seed, wanted) = (argument(1, "SEED"), argument(2, "OBJECTS"));
    let mut random = Xorshift::new(seed);
    let (mut charts, mut built, mut all) = (0, 0, Asked::default());
    while (all.objects as u64) < wanted {
        let raw = random.once_in(3);
        all += asked(&mut random, raw);
        charts += 1;
        built += u64::from(raw);
    }
    let Asked {
        objects,
        noteless,
        grouped,
        pairs,
        noteless_lessons,
    } = all;
    println!(
        "seed {seed}: {charts} charts, {built} of them built of raw objects, {objects} objects over all calls, {noteless} \
         stretches without a note, {grouped} charts of ranges with groups, lessons of {pairs} pairs together, \
         {noteless_lessons} lessons with a pair without a note, no difference"
    );
}
