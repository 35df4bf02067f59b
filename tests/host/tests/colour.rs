//! colour and stretch over the static library: the scope's example, a plain reimplementation, memory, and refusals 1 to 9, 11 and 16.

use host_tests::chart::Chart;
use host_tests::check::bad_charts;
use host_tests::check_colour::{check_stretch, check_values, exact, refused, roomy, DONE};
use host_tests::colour::{colour, stretch, Memory};
use host_tests::faults::with_bad_settings;
use host_tests::samples::{biased_chart, ratios, Xorshift};
use host_tests::LARGEST_CHART;

#[test]
fn one_object_has_the_value_of_the_scope() {
    let mut memory = exact(1);
    assert_eq!(colour(&Chart::of_text("d"), &mut memory), DONE);
    assert_eq!(memory.value.lent()[0].to_bits(), 0x4013_ee42_c838_4268);
}

#[test]
fn values_and_stretches_follow_the_scope() {
    let mut rng = Xorshift::new(0x5EED);
    let (mut stretches, mut negative, mut noteless) = (0, 0, 0);
    for round in 0..2_000 {
        let n = rng.below(120);
        let mut chart = biased_chart(&mut rng, n);
        chart.ratio = ratios(&mut rng, n);
        let values = check_values(&chart);
        if n == 0 {
            continue;
        }
        let a = rng.below(n);
        let b = match round % 4 {
            0 => n,
            _ => rng.between(a + 1, n),
        };
        match check_stretch(&chart, &values, a, b) {
            None => noteless += 1,
            Some(mean) => {
                stretches += 1;
                negative += usize::from(mean < 0.0);
            }
        }
    }
    assert!(
        stretches > 1_500 && negative > 100 && noteless > 20,
        "{stretches} stretches, {negative} negative means, {noteless} without notes"
    );
}

/// Means half-way between two tenths: the even one is shown. All ratios of a chart are equal.
#[test]
fn half_way_the_even_tenth_is_shown() {
    for (kinds, ratio, (a, b), mean, tenths) in [
        ("ddddk", 0x3FFD_F719_7F2D_26A0, (4, 5), 1.25, 12),
        ("dkkdk", 0x4022_FAA8_E5E7_E3F9, (0, 4), 0.75, 8),
        ("dkkdk", 0x4026_FE38_4CA2_A152, (0, 4), 0.25, 2),
        ("dkkdk", 0x402B_01C7_B35D_5EAD, (0, 4), -0.25, -2),
        ("dkkdk", 0x402F_0557_1A18_1C06, (0, 4), -0.75, -8),
    ] {
        let mut chart = Chart::of_text(kinds);
        chart.ratio = vec![f64::from_bits(ratio); kinds.len()];
        let values = check_values(&chart);
        assert_eq!(check_stretch(&chart, &values, a, b), Some(mean));
        let got = stretch(&chart, a, b, &mut roomy(kinds.len()));
        assert_eq!(got.tenths, tenths, "{a}..{b} of {chart}");
    }
}

/// NonHits are filled like other objects, and lend the mean neither their values nor their number.
#[test]
fn non_hits_do_not_move_a_mean() {
    let chart = Chart::of_text("nndknkn");
    let values = check_values(&chart);
    assert!(values[0] > 0.0, "a NonHit has a value");
    for (a, b, notes) in [
        // at both ends, at either, and inside
        (1, 5, vec![2, 3]),
        (0, 7, vec![2, 3, 5]),
        (1, 3, vec![2]),
        (3, 5, vec![3]),
        (3, 6, vec![3, 5]),
        // a note alone
        (2, 3, vec![2]),
    ] {
        let sum: f64 = notes.iter().fold(0.0, |sum, &i: &usize| sum + values[i]);
        let mean = sum / notes.len() as f64;
        let checked = check_stretch(&chart, &values, a, b);
        assert_eq!(checked.map(f64::to_bits), Some(mean.to_bits()), "{a}..{b}");
    }
}

#[test]
fn stretches_of_non_hits_are_refused_11() {
    let chart = Chart::of_text("nndn");
    for bounds in [(0, 1), (1, 2), (0, 2), (3, 4)] {
        refused(&chart, Some(bounds), roomy(4), 11, 0);
    }
    // what is empty or overlong is refused for that
    for bounds in [(0, 0), (1, 1), (3, 3), (4, 4), (3, 5), (0, 5), (2, 1)] {
        refused(&chart, Some(bounds), roomy(4), 9, 0);
    }
    let most = LARGEST_CHART;
    let silent = Chart::of_kinds(vec![2; most]);
    refused(&silent, Some((0, most)), roomy(most), 11, 0);
    refused(&silent, Some((0, most + 1)), roomy(most), 9, 0);
}

/// The sum begins with 0.0, so that notes of -0.0 alone have the mean 0.0.
#[test]
fn notes_of_minus_zero_have_the_mean_zero() {
    let mut chart = Chart::of_text("dndd");
    // the last two open nothing, and their penalty is below zero
    chart.ratio = vec![4.0; 4];
    let values = check_values(&chart);
    let minus_zero = (-0.0f64).to_bits();
    assert_eq!([2, 3].map(|i| values[i].to_bits()), [minus_zero; 2]);
    for a in [1, 2, 3] {
        let mean = check_stretch(&chart, &values, a, 4);
        assert_eq!(mean.map(f64::to_bits), Some(0), "{a}..4");
    }
}

#[test]
fn stretches_that_are_none_are_refused_9() {
    let chart = Chart::of_text("ddkkd");
    for bounds in [
        (0, 6),
        (5, 6),
        (2, 2),
        (3, 2),
        (5, 5),
        (0, 0),
        (0, usize::MAX),
        // to 32 bits these are stretches
        (1 << 32, 3),
        (0, (1 << 32) + 3),
        (usize::MAX, usize::MAX),
        (usize::MAX, 0),
    ] {
        refused(&chart, Some(bounds), roomy(5), 9, 0);
    }
    let accepted = stretch(&chart, 0, 5, &mut exact(5));
    assert_eq!((accepted.refusal, accepted.place), (0, 0), "b = n");
    refused(&Chart::of_text(""), Some((0, 0)), exact(0), 9, 0);
}

#[test]
fn earlier_refusals_come_before_9_and_11() {
    let (good, huge) = (Chart::of_size(5), Chart::of_size(LARGEST_CHART + 1));
    for bounds in [None, Some((1, 4)), Some((4, 1))] {
        for settings in with_bad_settings() {
            refused(
                &huge.under(settings),
                bounds,
                exact(LARGEST_CHART + 1),
                1,
                0,
            );
            for sizes in [[4, 40, 5], [5, 39, 5], [5, 40, 4]] {
                refused(&good.under(settings), bounds, Memory::of_sizes(sizes), 3, 0);
            }
        }
        for (number, place, mut chart) in bad_charts() {
            refused(&chart, bounds, exact(5), number, place);
            // nor is a note in it
            let notes = chart.kind.iter_mut().filter(|kind| **kind < 2);
            notes.for_each(|kind| *kind = 2);
            refused(&chart, bounds, exact(5), number, place);
        }
    }
}

#[test]
fn the_largest_chart_is_accepted() {
    let mut rng = Xorshift::new(7);
    let values = check_values(&biased_chart(&mut rng, LARGEST_CHART));
    assert_eq!(values.len(), LARGEST_CHART);
}
