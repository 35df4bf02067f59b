//! rhythm and record over the static library: the scope's examples, a plain reimplementation, memory, and refusals 1 to 9 and 16.

use host_tests::chart::Chart;
use host_tests::check::bad_charts;
use host_tests::check_rhythm::{check_record, check_rhythm, exact, refused, roomy};
use host_tests::faults::with_bad_settings;
use host_tests::lent::TwoNumbers;
use host_tests::plain_rhythm::{Groups, NO_GROUP};
use host_tests::rhythm::{record, rhythm};
use host_tests::samples::{rhythmic_chart, Xorshift};
use host_tests::LARGEST_CHART;

/// Notes with these deltas, each start the one before and its delta.
fn notes(deltas: &[f64]) -> Chart {
    let mut chart = Chart::of_kinds(vec![0; deltas.len()]);
    chart.delta = deltas.to_vec();
    let mut now = 0.0;
    for (start, delta) in chart.start.iter_mut().zip(deltas) {
        now += delta;
        *start = now;
    }
    chart
}

#[test]
fn groups_of_the_scopes_examples() {
    let cases: [(&[f64], &[u16]); 6] = [
        (&[100.0, 100.0, 100.0], &[0, 0, 0]),
        (&[100.0, 100.0, 200.0], &[0, 0, 1]),
        (&[100.0, 200.0, 100.0], &[0, 1, 2]),
        (&[100.0, 100.0], &[0, 1]),
        (&[100.0, 300.0], &[0, 1]),
        (&[300.0, 100.0], &[0, 1]),
    ];
    for (deltas, want) in cases {
        let mut memory = exact(deltas.len());
        rhythm(&notes(deltas), &mut memory);
        assert_eq!(memory.numbers[0].lent(), want, "{deltas:?}");
    }
}

#[test]
fn own_interval_of_the_scopes_examples() {
    let own = |deltas: &[f64]| {
        let chart = notes(deltas);
        let got = record(&chart, 0, 100.0, &mut exact(chart.size()));
        assert_eq!(got.note_count, deltas.len() as u64, "{deltas:?}");
        f64::from_bits(got.own_bits)
    };
    // 100 and 105 count as 102.5, which is 102 to even; of 100, 103 and 107 the second counts as 101.5
    assert_eq!(own(&[100.0, 105.0, 105.0]), 102.0);
    assert_eq!(own(&[100.0, 103.0, 107.0]), 102.0);
}

#[test]
fn groups_and_records_follow_the_scope() {
    let mut rng = Xorshift::new(0xD0C01);
    let (mut records, mut nans, mut minus_zeros, mut above) = (0, 0, 0, 0);
    for _ in 0..2_000 {
        let n = rng.below(90);
        let chart = rhythmic_chart(&mut rng, n);
        let groups = Groups::of(&chart);
        check_rhythm(&chart, &groups);
        for group in 0..groups.objects.len() {
            let window = rng.pick(&[1.0, 20.0, 35.5, 80.0, 1000.0]);
            let got = check_record(&chart, &groups, group, window);
            records += 1;
            nans += usize::from(got.ratio_bits == 0x7FF8_0000_0000_0000);
            minus_zeros += usize::from(got.has_own == 1 && got.own_bits == (-0.0f64).to_bits());
            above += usize::from(f64::from_bits(got.penalty_bits) > 1.0);
        }
    }
    assert!(
        records > 20_000 && nans > 100 && minus_zeros > 100 && above > 100,
        "{records} records, {nans} ratios NaN, {minus_zeros} own intervals -0.0, {above} penalties above 1.0"
    );
}

#[test]
fn the_largest_charts_are_accepted() {
    let falling: Vec<f64> = (1..=LARGEST_CHART).rev().map(|x| x as f64).collect();
    let mut one_group = notes(&falling);
    one_group.start.fill(0.0);
    let mut rng = Xorshift::new(11);
    for chart in [one_group, rhythmic_chart(&mut rng, LARGEST_CHART)] {
        let groups = Groups::of(&chart);
        check_rhythm(&chart, &groups);
        for group in [0, groups.objects.len() - 1] {
            check_record(&chart, &groups, group, 50.0);
        }
    }
}

#[test]
fn a_chart_without_notes_has_no_groups() {
    let chart = Chart::of_text("nn");
    let mut memory = exact(2);
    let got = rhythm(&chart, &mut memory);
    assert_eq!((got.refusal, got.groups, got.pattern_groups), (0, 0, 0));
    for numbers in memory.numbers {
        assert_eq!(numbers.lent(), [NO_GROUP; 2]);
    }
    let empty = Chart::of_text("");
    assert_eq!(rhythm(&empty, &mut exact(0)).refusal, 0);
    refused(&chart, Some((0, 50.0)), roomy(2), 9, 0);
    refused(&empty, Some((0, 50.0)), exact(0), 9, 0);
}

#[test]
fn windows_out_of_range_are_refused_8_and_groups_that_are_none_9() {
    let chart = notes(&[100.0, 100.0, 200.0]);
    for window in [
        1.0f64.next_down(),
        1000.0f64.next_up(),
        0.0,
        -50.0,
        f64::INFINITY,
        f64::NEG_INFINITY,
        f64::NAN,
        -f64::NAN,
    ] {
        refused(&chart, Some((0, window)), roomy(3), 8, 0);
        refused(&chart, Some((2, window)), exact(3), 8, 0);
    }
    for window in [1.0, 1000.0] {
        let groups = Groups::of(&chart);
        check_record(&chart, &groups, 1, window);
        // the last three are 0 to 16 bits, 0 to 32 bits, and the largest there is
        for group in [2, 3, LARGEST_CHART, 1 << 16, 1 << 32, usize::MAX] {
            refused(&chart, Some((group, window)), roomy(3), 9, 0);
        }
    }
}

#[test]
fn earlier_refusals_come_before_8_and_9() {
    let (good, huge) = (Chart::of_size(5), Chart::of_size(LARGEST_CHART + 1));
    let nan = f64::NAN;
    for of in [
        None,
        Some((0, 50.0)),
        Some((0, nan)),
        Some((9, 50.0)),
        Some((9, nan)),
    ] {
        for settings in with_bad_settings() {
            refused(&huge.under(settings), of, exact(LARGEST_CHART + 1), 1, 0);
            for sizes in [[5, 5, 39, 5], [5, 5, 40, 4]] {
                let lent = TwoNumbers::of_sizes(sizes, 5);
                refused(&good.under(settings), of, lent, 3, 0);
            }
        }
        for (number, place, chart) in bad_charts() {
            refused(&chart, of, exact(5), number, place);
        }
    }
    for settings in with_bad_settings() {
        for sizes in [[4, 5, 40, 5], [5, 4, 40, 5]] {
            let lent = TwoNumbers::of_sizes(sizes, 5);
            refused(&good.under(settings), None, lent, 3, 0);
        }
    }
}
