//! A chart that is built of raw objects: every list of it, every refusal, and memory that is used again.

use dresserduck::{
    calls, BuiltChart, RawChart, Refusal, Settings, Workspace, LARGEST_CHART, LARGEST_RAW_CHART,
};

/// Alternating colours, 100 milliseconds apart.
struct Lists {
    kind: Vec<u8>,
    time: Vec<f64>,
}

impl Lists {
    fn of(m: usize) -> Self {
        Lists {
            kind: (0..m).map(|i| (i % 2) as u8).collect(),
            time: (0..m).map(|i| i as f64 * 100.0).collect(),
        }
    }

    fn raw(&self, rate: f64) -> RawChart<'_> {
        RawChart::new(&self.kind, &self.time, rate)
    }

    fn refusal(&self, rate: f64) -> Option<Refusal> {
        self.raw(rate).build().err()
    }
}

#[test]
fn a_built_chart_has_each_list_in_its_field() {
    let kind = [2, 2, 0, 1, 2, 0];
    let time = [-1000.0, -30.0, 60.0, 150.0, 330.0, 300.0];
    let built = RawChart::new(&kind, &time, 0.75).build().unwrap();
    assert_eq!(built.kind, [0, 1, 2, 0]);
    assert_eq!(built.start, [80.0, 200.0, 440.0, 400.0]);
    assert_eq!(built.delta, [120.0, 120.0, 240.0, -40.0]);
    // the last quotient is -1/6
    assert_eq!(built.ratio, [1.0, 1.0, 2.0, 1.0 / 3.0]);
    let chart = built.chart();
    assert_eq!(chart.kind, built.kind);
    assert_eq!(
        [chart.start, chart.delta, chart.ratio],
        [&built.start, &built.delta, &built.ratio]
    );
}

#[test]
fn two_raw_objects_and_fewer_build_nothing() {
    for m in 0..=2 {
        assert_eq!(Lists::of(m).raw(1.0).build(), Ok(BuiltChart::default()));
        assert_eq!(Lists::of(m).refusal(0.0), Some(Refusal::BadRate), "{m}");
    }
    assert_eq!(Lists::of(3).raw(1.0).build().unwrap().kind, [0]);
}

#[test]
fn sizes_lengths_and_rates_are_refused() {
    let largest = Lists::of(LARGEST_RAW_CHART);
    let built = largest.raw(1.0).build().unwrap();
    assert_eq!(built.kind.len(), LARGEST_CHART);
    let rhythm = Workspace::new().rhythm(&built.chart(), Settings::DEFAULT);
    assert!(rhythm.is_ok());
    let too_many = Lists::of(LARGEST_RAW_CHART + 1);
    assert_eq!(too_many.refusal(9.0), Some(Refusal::TooManyObjects));
    for m in [0, 2, 7] {
        let mut lists = Lists::of(m);
        lists.time.push(0.0);
        assert_eq!(lists.refusal(9.0), Some(Refusal::LengthsDiffer), "{m}");
    }
    let mut lists = Lists::of(7);
    lists.kind[4] = 3;
    for rate in [0.25f64.next_down(), 4.0f64.next_up(), f64::NAN] {
        assert_eq!(lists.refusal(rate), Some(Refusal::BadRate), "{rate:?}");
    }
    for rate in [0.25, 4.0] {
        assert_eq!(Lists::of(7).refusal(rate), None, "{rate:?}");
    }
}

/// Each comes before those that apply already, at the object of the built chart.
#[test]
fn objects_are_refused() {
    let mut lists = Lists::of(7);
    // from here to the next object there are more than 16,777,216 milliseconds
    lists.time[..5].fill(-16_777_216.0);
    let object = 3;
    let refusal = |lists: &Lists| lists.refusal(1.0);
    assert_eq!(refusal(&lists), Some(Refusal::BadDelta { object }));
    lists.time[5] = 16_777_217.0;
    assert_eq!(refusal(&lists), Some(Refusal::BadStart { object }));
    lists.kind[5] = 3;
    assert_eq!(refusal(&lists), Some(Refusal::BadKind { object }));
}

/// Only a host that lends memory of its own can meet this one.
#[test]
fn short_slices_are_refused() {
    let lists = Lists::of(7);
    let refused = |[a, b, c, d]: [usize; 4]| {
        let (mut kind, mut times) = (vec![9; a], [b, c, d].map(|count| vec![9.0; count]));
        let [start, delta, ratio] = &mut times;
        let got = calls::build(&lists.raw(9.0), &mut kind, start, delta, ratio);
        assert_eq!((got.place, got.objects), (0, 0));
        assert!(kind.iter().all(|&x| x == 9) && times.concat().iter().all(|&x| x == 9.0));
        got.refusal
    };
    for short in 0..4 {
        let mut counts = [5; 4];
        counts[short] = 4;
        assert_eq!(refused(counts), Refusal::SliceTooShort.number(), "{short}");
    }
    assert_eq!(refused([5; 4]), Refusal::BadRate.number());
}

/// Large, small and refused ones in turn give what a new one gives, in the memory of the largest.
#[test]
fn a_built_chart_is_used_again() {
    let mut built = Lists::of(LARGEST_RAW_CHART).raw(1.0).build().unwrap();
    let places = |built: &BuiltChart| {
        let times = [&built.start, &built.delta, &built.ratio];
        (built.kind.as_ptr(), times.map(|list| list.as_ptr()))
    };
    let before = places(&built);
    for (m, rate) in [
        (7, 1.0),
        (1, 1.5),
        (7, 9.0),
        (LARGEST_RAW_CHART + 1, 1.0),
        (300, 0.75),
    ] {
        let lists = Lists::of(m);
        let got = lists.raw(rate).build_into(&mut built);
        match lists.raw(rate).build() {
            Ok(fresh) => assert_eq!((got, &built), (Ok(()), &fresh), "{m}"),
            Err(refusal) => assert_eq!(got, Err(refusal), "{m}"),
        }
        assert_eq!(places(&built), before, "memory was taken for {m}");
    }
}
