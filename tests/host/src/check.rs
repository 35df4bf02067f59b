//! One call of encode with known memory, and a look at everything that it may have written; and charts that every call refuses.

use crate::chart::Chart;
use crate::faults::some_bad_settings;
use crate::lent::{exact_sizes, Lent, Sizes};
use crate::plain::{self, Answers};
use crate::{encode, Encoded};

/// Calls with sentinels in memory of these sizes; the answer and every place must be as `want` and `filled` say.
#[track_caller]
fn called(chart: &Chart, sizes: Sizes, want: Encoded, filled: Option<&Answers>) {
    let mut lent = Lent::new(sizes, chart.size());
    let mut expected = lent.clone();
    if let Some(answers) = filled {
        expected.fill(answers);
    }
    let got = encode(chart, &mut lent);
    assert_eq!(got, want, "answer for {chart}\nlent {sizes:?}");
    let faults = lent.differences(&expected);
    assert!(
        faults.is_empty(),
        "{faults:?} after {chart}\nlent {sizes:?}"
    );
}

/// The chart is accepted with these answers: first n places filled, work and scratch cleared as far as they are needed,
/// all else untouched.
#[track_caller]
pub fn accepted_with(chart: &Chart, sizes: Sizes, answers: &Answers) {
    let want = Encoded {
        refusal: 0,
        place: 0,
        hit_patterns: answers.hit_patterns,
    };
    called(chart, sizes, want, Some(answers));
}

/// The chart is accepted with memory of exactly the size that it needs, and gets the answers of the plain encoder.
#[track_caller]
pub fn accepted(chart: &Chart) -> Answers {
    let answers = plain::encode(&chart.kind, chart.settings.search_limit);
    accepted_with(chart, exact_sizes(chart.size()), &answers);
    answers
}

/// The chart is refused with this number and place, and every place of every lent slice is as it was.
#[track_caller]
pub fn refused(chart: &Chart, sizes: Sizes, refusal: u64, place: usize) {
    let want = Encoded {
        refusal,
        place: place as u64,
        hit_patterns: 0,
    };
    called(chart, sizes, want, None);
}

type Change = fn(&mut Chart);

/// Charts of five objects that are refused, with the refusal's number and place: under the default settings, and under bad
/// ones, which are told behind 2 and before 4.
pub fn bad_charts() -> Vec<(u64, u64, Chart)> {
    let mut all: Vec<(u64, u64, Chart)> = badly_made().collect();
    for settings in some_bad_settings() {
        let under = |chart: &Chart| chart.under(settings);
        all.push((16, 0, under(&Chart::of_size(5))));
        let told = |number| if number < 4 { number } else { 16 };
        all.extend(badly_made().map(|(number, _, chart)| (told(number), 0, under(&chart))));
    }
    all
}

fn badly_made() -> impl Iterator<Item = (u64, u64, Chart)> {
    let changes: [(u64, Change); 7] = [
        (2, |chart| chart.start.truncate(4)),
        (2, |chart| chart.delta.push(1.0)),
        (2, |chart| chart.ratio.truncate(4)),
        (4, |chart| chart.kind[3] = 3),
        (5, |chart| chart.start[3] = f64::NAN),
        (6, |chart| chart.delta[3] = 16_777_217.0),
        (7, |chart| chart.ratio[3] = 0.0),
    ];
    changes.into_iter().map(|(number, change)| {
        let mut chart = Chart::of_size(5);
        change(&mut chart);
        let place = if number > 3 { 3 } else { 0 };
        (number, place, chart)
    })
}
