//! Each number at its bounds, and outside them: 16, which every call tells.

use host_tests::eight::{accepted, refused, Asked};
use host_tests::faults::{bad_settings, settings_at_bounds, some_bad_settings};
use host_tests::samples::{biased_chart, rhythmic_chart, rounds, Xorshift};
use host_tests::sets::{drawn_chart, drawn_settings};
use host_tests::taps::TapChart;
use host_tests::LARGEST_CHART;

use dresserduck::Settings;

/// Without objects, with one, and with nine.
fn small_charts() -> [TapChart; 3] {
    [0, 1, 9].map(TapChart::of_size)
}

fn whole(chart: TapChart) -> Asked {
    let bounds = (0, chart.size());
    Asked {
        chart,
        bounds,
        window: 50.0,
    }
}

#[test]
fn numbers_at_their_bounds_are_accepted() {
    let mut random = Xorshift::new(0xB0D5);
    for settings in settings_at_bounds() {
        for chart in small_charts() {
            accepted(&whole(chart.under(settings)));
        }
        for _ in 0..10 {
            accepted(&drawn_chart(&mut random, settings));
        }
    }
}

#[test]
fn every_search_limit_from_2_to_64_is_accepted() {
    let mut random = Xorshift::new(0x2064);
    for search_limit in 2..=64 {
        let settings = drawn_settings(&mut random).with_search_limit(search_limit);
        for chart in small_charts() {
            accepted(&whole(chart.under(settings)));
        }
        accepted(&drawn_chart(&mut random, settings));
    }
}

#[test]
fn numbers_outside_their_bounds_are_refused_16() {
    let mut random = Xorshift::new(0x016);
    let all = bad_settings();
    assert_eq!(all.len(), 59, "three numbers of 15, and 14 limits");
    for settings in all {
        for chart in small_charts() {
            refused(&chart.under(settings), 16);
        }
        let drawn = drawn_chart(&mut random, Settings::DEFAULT).chart;
        refused(&drawn.under(settings), 16);
    }
}

/// Also where the other numbers are at their bounds.
#[test]
fn one_number_outside_is_enough() {
    let [margin, limit, threshold, tolerance, _] = some_bad_settings();
    for end in [0.0, 1.0] {
        let good = Settings {
            margin: 50.0 * end,
            search_limit: 2 + 62 * end as u64,
            threshold: end,
            tolerance: end,
        };
        let chart = TapChart::of_size(9);
        accepted(&whole(chart.under(good)));
        for settings in [
            good.with_margin(margin.margin),
            good.with_search_limit(limit.search_limit),
            good.with_threshold(threshold.threshold),
            good.with_tolerance(tolerance.tolerance),
        ] {
            refused(&chart.under(settings), 16);
        }
    }
}

#[test]
fn the_largest_charts_are_answered_and_refused_too() {
    let mut random = Xorshift::new(0x1A46);
    let mut repeating = rhythmic_chart(&mut random, LARGEST_CHART);
    let round = rounds(63);
    repeating.kind = round.iter().copied().cycle().take(LARGEST_CHART).collect();
    for low in [repeating, biased_chart(&mut random, LARGEST_CHART)] {
        let chart = TapChart::exact(&low);
        for margin in [0.0, 50.0] {
            let settings = drawn_settings(&mut random).with_margin(margin);
            accepted(&whole(chart.under(settings.with_search_limit(64))));
        }
        for settings in some_bad_settings() {
            refused(&chart.under(settings), 16);
        }
    }
}
