//! Refusals 1 to 7 and 16 of encode, of turns and of lesson: each at its boundaries, with its place, in their order.
//! After each, all lent memory is as it was.

mod host;
mod limits;
mod order;

use host_tests::chart::Chart;
use host_tests::lent::{exact_four, exact_sizes, FourSizes, Sizes};
use host_tests::lesson::{self, Marked};
use host_tests::{check, plain, plain_turns, turns};

/// A call that is handed a chart, settings and what it is lent, and nothing else; lesson is handed the whole chart as
/// its one stretch.
trait OnChart {
    /// The counts of the slices that it is lent; the last two are work and scratch.
    type Sizes: AsMut<[usize]> + Copy;

    /// The fewest places for n objects.
    fn exact(n: usize) -> Self::Sizes;

    /// It answers as its plain version does.
    fn accepted(chart: &Chart, sizes: Self::Sizes);

    /// It refuses, and every place is as it was.
    fn refused(chart: &Chart, sizes: Self::Sizes, refusal: u64, place: usize);
}

struct Encode;

impl OnChart for Encode {
    type Sizes = Sizes;

    fn exact(n: usize) -> Sizes {
        exact_sizes(n)
    }

    #[track_caller]
    fn accepted(chart: &Chart, sizes: Sizes) {
        let answers = plain::encode(&chart.kind, chart.settings.search_limit);
        check::accepted_with(chart, sizes, &answers);
    }

    #[track_caller]
    fn refused(chart: &Chart, sizes: Sizes, refusal: u64, place: usize) {
        check::refused(chart, sizes, refusal, place);
    }
}

struct Turns;

impl OnChart for Turns {
    type Sizes = FourSizes;

    fn exact(n: usize) -> FourSizes {
        exact_four(n)
    }

    #[track_caller]
    fn accepted(chart: &Chart, sizes: FourSizes) {
        turns::accepted_with(chart, sizes, &plain_turns::turns(&chart.kind));
    }

    #[track_caller]
    fn refused(chart: &Chart, sizes: FourSizes, refusal: u64, place: usize) {
        turns::refused(chart, sizes, refusal, place);
    }
}

struct Lesson;

/// One stretch, or none where there is no object.
fn marked(chart: &Chart) -> Marked {
    let whole = [(0, chart.size() as u64)];
    Marked::new(chart, &whole[..chart.size().min(1)])
}

impl OnChart for Lesson {
    type Sizes = lesson::Sizes;

    fn exact(n: usize) -> lesson::Sizes {
        lesson::exact_sizes(n, 1)
    }

    /// A chart without a note is refused for that.
    #[track_caller]
    fn accepted(chart: &Chart, sizes: lesson::Sizes) {
        let told = lesson::answered_with(&marked(chart), sizes);
        let silent = chart.notes().is_empty() && chart.size() > 0;
        assert_eq!(told.err(), silent.then_some((11, 0)), "{chart}");
    }

    #[track_caller]
    fn refused(chart: &Chart, sizes: lesson::Sizes, refusal: u64, place: usize) {
        lesson::refused_with(&marked(chart), sizes, refusal, place);
    }
}

/// The call's sizes for n objects, and so much more in each slice.
fn roomy<C: OnChart>(n: usize, more: usize) -> C::Sizes {
    let mut sizes = C::exact(n);
    sizes.as_mut().iter_mut().for_each(|count| *count += more);
    sizes
}

/// All three accept the chart in memory that is exactly enough.
#[track_caller]
fn accepted(chart: &Chart) {
    Encode::accepted(chart, Encode::exact(chart.size()));
    Turns::accepted(chart, Turns::exact(chart.size()));
    Lesson::accepted(chart, Lesson::exact(chart.size()));
}

/// All refuse it in memory that is exactly enough for n objects.
#[track_caller]
fn refused(chart: &Chart, n: usize, refusal: u64, place: usize) {
    Encode::refused(chart, Encode::exact(n), refusal, place);
    Turns::refused(chart, Turns::exact(n), refusal, place);
    Lesson::refused(chart, Lesson::exact(n), refusal, place);
}
