//! How far back a repetition is found: intervals that follow from how a chart is built.

use host_tests::chart::Chart;
use host_tests::check::accepted;
use host_tests::samples::rounds;

use dresserduck::Settings;

/// A chart, and the object from which on each hit pattern is like the one so far back and like none between.
fn repeating(period: usize) -> (Chart, usize) {
    match period {
        1 => (Chart::of_text("dkk dkk dkd kk dkd kk"), 6),
        2 => (Chart::of_text("d kk dd k"), 5),
        _ => {
            let chart = Chart::of_kinds(rounds(period));
            let half = chart.size() / 2;
            (chart, half)
        }
    }
}

/// The intervals of such a chart, all of a chart that are there being found or none.
#[track_caller]
fn check(period: usize, search_limit: u64, again: u64) {
    let (chart, from) = repeating(period);
    let under = chart.under(Settings::DEFAULT.with_search_limit(search_limit));
    let interval = accepted(&under).interval;
    let none = search_limit as u8 + 1;
    let want = [vec![none; from], vec![again as u8; chart.size() - from]].concat();
    assert_eq!(interval, want, "{period} back in {under}");
}

/// Where it is found below the limit, and not at it.
#[test]
fn repetitions_are_found_below_the_limit() {
    for search_limit in 2..=64 {
        let limit = search_limit as usize;
        check(limit - 1, search_limit, search_limit - 1);
        check(limit, search_limit, search_limit + 1);
    }
}

#[test]
fn what_is_nearer_is_found_and_what_is_farther_is_not() {
    for search_limit in [2, 3, 15, 16, 17, 40, 63, 64] {
        for period in 1..70 {
            let again = match (period as u64) < search_limit {
                true => period as u64,
                false => search_limit + 1,
            };
            check(period, search_limit, again);
        }
    }
}
