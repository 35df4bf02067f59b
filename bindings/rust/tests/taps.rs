//! The call taps: each answer in its field, groups that are open, its own refusals, and memory that is used again.

use dresserduck::{PairClass, Refusal, Settings, TapChart, Taps, Workspace};

/// Per object its kind, and the lowest and the highest delta.
struct Lists {
    kind: Vec<u8>,
    lowest: Vec<f64>,
    highest: Vec<f64>,
    ones: Vec<f64>,
}

impl Lists {
    fn of(objects: &[(u8, f64, f64)]) -> Self {
        Lists {
            kind: objects.iter().map(|object| object.0).collect(),
            lowest: objects.iter().map(|object| object.1).collect(),
            highest: objects.iter().map(|object| object.2).collect(),
            ones: vec![1.0; objects.len()],
        }
    }

    fn chart(&self) -> TapChart<'_> {
        TapChart::new(
            &self.kind,
            &self.ones,
            &self.lowest,
            &self.highest,
            &self.ones,
        )
    }

    fn taps(&self) -> Result<Taps, Refusal> {
        Workspace::new().taps(&self.chart(), Settings::DEFAULT)
    }
}

/// Three notes near 100, a NonHit that may be anything, a rise to two notes whose pair is open, which is not looked at,
/// and two near 100.
const OBJECTS: [(u8, f64, f64); 8] = [
    (0, 100.0, 100.0),
    (1, 100.0, 101.0),
    (0, 100.0, 102.0),
    (2, -5.0, 1000.0),
    (1, 200.0, 201.0),
    (1, 203.0, 207.0),
    (0, 100.0, 101.0),
    (0, 101.0, 102.0),
];

/// Each object, and the place past the chart.
const PLACES: [usize; 9] = [0, 1, 2, 3, 4, 5, 6, 7, 8];

#[test]
fn taps_have_each_class_and_each_group_in_its_place() {
    let taps = Lists::of(&OBJECTS).taps().unwrap();
    let [near, rise, neither, open] = [
        PairClass::Near,
        PairClass::Rise,
        PairClass::Neither,
        PairClass::Open,
    ]
    .map(Some);
    let want = [near, near, rise, None, open, neither, near, None, None];
    assert_eq!(PLACES.map(|object| taps.pair(object)), want);
    let numbers = [near, rise, neither, open].map(|class| class.map(PairClass::number));
    assert_eq!(numbers, [0, 1, 2, 3].map(Some));
    assert_eq!(taps.groups, Some(3));
    let (a, b, c) = (Some(0), Some(1), Some(2));
    let groups = PLACES.map(|object| taps.group(object));
    assert_eq!(groups, [a, a, a, None, b, c, c, c, None]);
}

#[test]
fn where_a_pair_that_is_looked_at_is_open_there_are_no_groups() {
    let mut lists = Lists::of(&OBJECTS);
    // as far as 7 from the note before, and never nearer than 1
    lists.highest[7] = 107.0;
    let taps = lists.taps().unwrap();
    assert_eq!(taps.groups, None);
    assert_eq!(PLACES.map(|object| taps.group(object)), [None; 9]);
    let classes = [0, 5, 6, 7].map(|object| taps.pair(object));
    let [near, neither, open] = [PairClass::Near, PairClass::Neither, PairClass::Open].map(Some);
    assert_eq!(classes, [near, neither, open, None]);
}

#[test]
fn ends_are_refused() {
    let object = 3; // the NonHit
    let mut lists = Lists::of(&OBJECTS);
    lists.ones[object] = f64::NAN;
    assert_eq!(lists.taps(), Err(Refusal::BadStart { object }));
    lists.ones[object] = 0.0;
    assert_eq!(lists.taps(), Err(Refusal::BadRatio { object }));
    lists.highest[object] = lists.lowest[object].next_down();
    assert_eq!(lists.taps(), Err(Refusal::LowestAboveHighest { object }));
    for end in [f64::NAN, f64::NEG_INFINITY, -16_777_217.0] {
        lists.highest[object] = end;
        assert_eq!(lists.taps(), Err(Refusal::BadDelta { object }), "{end:?}");
    }
    lists.highest[object] = 0.0;
    lists.lowest[object] = -f64::INFINITY;
    assert_eq!(lists.taps(), Err(Refusal::BadDelta { object }));
    (lists.lowest[object], lists.highest[object]) = (0.0, -0.0);
    lists.ones[object] = 1.0;
    assert_eq!(lists.taps().map(|taps| taps.groups), Ok(Some(3)));
}

#[test]
fn both_ends_are_to_be_as_long_as_the_kinds() {
    let changes: [fn(&mut Lists); 4] = [
        |lists| lists.lowest.truncate(7),
        |lists| lists.lowest.push(0.0),
        |lists| lists.highest.clear(),
        |lists| lists.highest.push(0.0),
    ];
    for change in changes {
        let mut lists = Lists::of(&OBJECTS);
        change(&mut lists);
        assert_eq!(lists.taps(), Err(Refusal::LengthsDiffer));
    }
}

/// Sure, open and refused ones in turn give what new ones give.
#[test]
fn taps_are_used_again() {
    let sure = Lists::of(&OBJECTS.repeat(40));
    let open = Lists::of(&[(0, 0.0, 9.0); 100]);
    let refused = Lists::of(&[(0, 9.0, 0.0); 100]);
    let (mut workspace, mut taps) = (Workspace::new(), Taps::default());
    for lists in [&sure, &open, &Lists::of(&[]), &refused, &open, &sure] {
        let got = workspace.taps_into(&lists.chart(), Settings::DEFAULT, &mut taps);
        match lists.taps() {
            Ok(fresh) => assert_eq!((got, &taps), (Ok(()), &fresh)),
            Err(refusal) => assert_eq!(got, Err(refusal)),
        }
    }
    // three groups a time, and the last goes on with the first of the next
    assert_eq!(taps.groups, Some(81));
    let (open, refused) = (open.taps(), refused.taps());
    assert_eq!(open.map(|taps| taps.groups), Ok(None));
    assert_eq!(refused, Err(Refusal::LowestAboveHighest { object: 0 }));
}
