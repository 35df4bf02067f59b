//! Every refusal that the calls on a chart can meet, the words of all, charts without objects, and a workspace that is used again.

use std::error::Error;
use std::ops::Range;

use dresserduck::{Chart, Lesson, Refusal, Settings, TapChart, Turns, Workspace, LARGEST_CHART};

const BASE: Settings = Settings::DEFAULT;

struct Lists {
    kind: Vec<u8>,
    start: Vec<f64>,
    delta: Vec<f64>,
    ratio: Vec<f64>,
}

impl Lists {
    fn of(n: usize) -> Self {
        Lists {
            kind: (0..n).map(|i| [0, 1, 1, 0, 2][i % 5]).collect(),
            start: (0..n).map(|i| i as f64 * 100.0).collect(),
            delta: vec![100.0; n],
            ratio: vec![1.0; n],
        }
    }

    fn chart(&self) -> Chart<'_> {
        Chart::new(&self.kind, &self.start, &self.delta, &self.ratio)
    }
}

/// The same chart of ranges that have one delta each.
fn sure<'a>(chart: &Chart<'a>) -> TapChart<'a> {
    TapChart::new(
        chart.kind,
        chart.start,
        chart.delta,
        chart.delta,
        chart.ratio,
    )
}

/// What each of the eight calls on a chart says.
fn refusals(chart: &Chart, settings: Settings) -> [Option<Refusal>; 8] {
    let (mut workspace, whole) = (Workspace::new(), 0..chart.len());
    [
        workspace.encode(chart, settings).err(),
        workspace.turns(chart, settings).err(),
        workspace.colour(chart, settings).err(),
        workspace.stretch(chart, settings, whole.clone()).err(),
        workspace.lesson(chart, settings, &[whole]).err(),
        workspace.rhythm(chart, settings).err(),
        workspace.taps(&sure(chart), settings).err(),
        workspace.record(chart, settings, 0, 50.0).err(),
    ]
}

#[track_caller]
fn all_refused(lists: &Lists, refusal: Refusal) {
    assert_eq!(refusals(&lists.chart(), BASE), [Some(refusal); 8]);
}

#[test]
fn charts_are_refused_by_every_call() {
    all_refused(&Lists::of(LARGEST_CHART + 1), Refusal::TooManyObjects);
    assert_eq!(refusals(&Lists::of(LARGEST_CHART).chart(), BASE), [None; 8]);
    let mut lists = Lists::of(7);
    assert_eq!(refusals(&lists.chart(), BASE), [None; 8]);
    lists.ratio[5] = f64::NAN;
    all_refused(&lists, Refusal::BadRatio { object: 5 });
    lists.delta[5] = f64::INFINITY;
    all_refused(&lists, Refusal::BadDelta { object: 5 });
    lists.start[5] = -16_777_217.0;
    all_refused(&lists, Refusal::BadStart { object: 5 });
    lists.kind[5] = 3;
    all_refused(&lists, Refusal::BadKind { object: 5 });
}

/// Before the objects are looked at, and behind the lists' lengths.
#[test]
fn numbers_out_of_range_are_refused_by_every_call() {
    let (mut lists, huge) = (Lists::of(7), Lists::of(LARGEST_CHART + 1));
    lists.kind[5] = 3;
    for settings in [
        BASE.with_margin(50.0f64.next_up()),
        BASE.with_margin(f64::NAN),
        BASE.with_search_limit(1),
        BASE.with_search_limit(65_536 + 16),
        BASE.with_threshold(-1.0),
        BASE.with_tolerance(1.0f64.next_up()),
    ] {
        let all = [Some(Refusal::BadSettings); 8];
        assert_eq!(refusals(&lists.chart(), settings), all, "{settings:?}");
        assert_eq!(
            refusals(&Lists::of(0).chart(), settings),
            all,
            "{settings:?}"
        );
        let all = [Some(Refusal::TooManyObjects); 8];
        assert_eq!(refusals(&huge.chart(), settings), all, "{settings:?}");
    }
    lists.kind[5] = 0;
    let widest = BASE.with_margin(50.0).with_search_limit(64);
    let widest = widest.with_threshold(1.0).with_tolerance(1.0);
    assert_eq!(refusals(&lists.chart(), widest), [None; 8]);
}

#[test]
fn each_slice_is_to_be_as_long_as_the_kinds() {
    let changes: [fn(&mut Lists); 4] = [
        |lists| lists.kind.push(3),
        |lists| lists.start.truncate(6),
        |lists| lists.delta.push(f64::NAN),
        |lists| lists.ratio.clear(),
    ];
    for change in changes {
        let mut lists = Lists::of(7);
        change(&mut lists);
        all_refused(&lists, Refusal::LengthsDiffer);
    }
}

#[test]
fn settings_are_refused_by_the_call_that_has_them() {
    let lists = Lists::of(7);
    let (chart, mut workspace) = (lists.chart(), Workspace::new());
    let backwards = Range { start: 5, end: 2 };
    for objects in [0..8, 3..3, backwards, 7..8, 0..usize::MAX] {
        let got = workspace.stretch(&chart, BASE, objects.clone());
        assert_eq!(got, Err(Refusal::OutsideChart), "{objects:?}");
    }
    // object 4 is the one NonHit
    assert_eq!(workspace.stretch(&chart, BASE, 4..5), Err(Refusal::NoNote));
    assert_eq!(
        workspace.stretch(&chart, BASE, 4..8),
        Err(Refusal::OutsideChart)
    );
    assert!(workspace.stretch(&chart, BASE, 4..6).is_ok());
    for window in [0.0, 1.0f64.next_down(), 1000.0f64.next_up(), f64::NAN] {
        let got = workspace.record(&chart, BASE, 0, window);
        assert_eq!(got, Err(Refusal::BadWindow), "{window:?}");
    }
    let groups = workspace.rhythm(&chart, BASE).unwrap().groups;
    assert!(workspace.record(&chart, BASE, groups - 1, 1.0).is_ok());
    let past = workspace.record(&chart, BASE, groups, 1000.0);
    assert_eq!(past, Err(Refusal::OutsideChart));
}

#[track_caller]
fn check_sentence(refusal: Refusal, begins: &str) {
    let error: Box<dyn Error> = refusal.into();
    let text = error.to_string();
    assert!(text.starts_with(begins) && text.ends_with('.'), "{text:?}");
}

#[test]
fn refusals_read_as_sentences_and_have_their_numbers() {
    let all = [
        Refusal::TooManyObjects,
        Refusal::LengthsDiffer,
        Refusal::SliceTooShort,
        Refusal::BadKind { object: 4 },
        Refusal::BadStart { object: 4 },
        Refusal::BadDelta { object: 4 },
        Refusal::BadRatio { object: 4 },
        Refusal::BadWindow,
        Refusal::OutsideChart,
        Refusal::BadRate,
        Refusal::NoNote,
        Refusal::LowestAboveHighest { object: 4 },
        Refusal::BadSettings,
        Refusal::BadLesson,
    ];
    for (number, refusal) in (1..=11).chain([15, 16, 17]).zip(all) {
        assert_eq!(refusal.number(), number);
        let of_object = (4..=7).contains(&number) || number == 15;
        let found = (refusal.object().is_some(), refusal.pair());
        assert_eq!(found, (of_object, None), "{number}");
        let begins = ["The ", "Object 4 of the chart, "][usize::from(of_object)];
        check_sentence(refusal, begins);
    }
    let pair = 4;
    for (number, refusal) in [
        (9, Refusal::PairOutsideChart { pair }),
        (11, Refusal::PairWithoutNote { pair }),
    ] {
        assert_eq!(refusal.number(), number);
        assert_eq!((refusal.object(), refusal.pair()), (None, Some(4)));
        check_sentence(refusal, "Passage 4 of the lesson, ");
    }
    let text = Refusal::BadSettings.to_string();
    for name in ["margin", "search limit", "threshold", "tolerance"] {
        assert!(text.contains(name), "{text:?}");
    }
}

#[test]
fn a_chart_without_objects_is_accepted() {
    let chart = Chart::new(&[], &[], &[], &[]);
    let mut workspace = Workspace::new();
    assert_eq!(workspace.encode(&chart, BASE).unwrap().hit_patterns, 0);
    assert_eq!(workspace.turns(&chart, BASE), Ok(Turns::default()));
    assert_eq!(workspace.colour(&chart, BASE), Ok(vec![]));
    assert_eq!(workspace.rhythm(&chart, BASE).unwrap().groups, 0);
    assert_eq!(workspace.taps(&sure(&chart), BASE).unwrap().groups, Some(0));
    assert_eq!(
        workspace.stretch(&chart, BASE, 0..0),
        Err(Refusal::OutsideChart)
    );
    assert_eq!(workspace.lesson(&chart, BASE, &[]), Ok(Lesson::default()));
    let pair = 0;
    assert_eq!(
        workspace.lesson(&chart, BASE, &[0..0, 1..1]),
        Err(Refusal::PairOutsideChart { pair })
    );
    let record = workspace.record(&chart, BASE, 0, 50.0);
    assert_eq!(record, Err(Refusal::OutsideChart));
}

/// Large, small and refused charts in turn give what a new workspace gives.
#[test]
fn a_workspace_is_as_good_as_new() {
    let mut workspace = Workspace::new();
    for n in [300, 7, 0, LARGEST_CHART + 1, 16, 301, LARGEST_CHART] {
        let lists = Lists::of(n);
        let chart = lists.chart();
        let mut fresh = Workspace::new();
        assert_eq!(
            workspace.encode(&chart, BASE),
            fresh.encode(&chart, BASE),
            "{n}"
        );
        assert_eq!(
            workspace.turns(&chart, BASE),
            fresh.turns(&chart, BASE),
            "{n}"
        );
        assert_eq!(
            workspace.colour(&chart, BASE),
            fresh.colour(&chart, BASE),
            "{n}"
        );
        assert_eq!(
            workspace.rhythm(&chart, BASE),
            fresh.rhythm(&chart, BASE),
            "{n}"
        );
        let of = |workspace: &mut Workspace| workspace.lesson(&chart, BASE, &[0..n, 1..n]);
        assert_eq!(of(&mut workspace), of(&mut fresh), "{n}");
        let of = |workspace: &mut Workspace| workspace.taps(&sure(&chart), BASE);
        assert_eq!(of(&mut workspace), of(&mut fresh), "{n}");
        let of = |workspace: &mut Workspace| workspace.record(&chart, BASE, 0, 50.0);
        assert_eq!(of(&mut workspace), of(&mut fresh), "{n}");
    }
}
