//! How many times as fast as the original the library is, and what a lesson saves, on the same charts in one run.

use std::array;
use std::hint::black_box;

use dresserduck::{
    BuiltChart, Chart, Encoding, RawChart, Refusal, Rhythm, Settings, Turns, Workspace,
};
use original_tests::lesson_times::lesson_ratios;
use original_tests::timing::medians;

const SIZES: [usize; 3] = [100, 1_000, 16_384];
const CALLS: [&str; 5] = ["encode", "turns", "colour", "rhythm", "record"];
const WINDOW: f64 = 50.0;
const RATE: f64 = 1.5;
// the original's
const BASE: Settings = Settings::DEFAULT;

/// A thing of each call.
type PerCall<T> = [T; CALLS.len()];

struct Lists {
    kind: Vec<u8>,
    start: Vec<f64>,
    delta: Vec<f64>,
    ratio: Vec<f64>,
}

impl Lists {
    fn chart(&self) -> Chart<'_> {
        Chart::new(&self.kind, &self.start, &self.delta, &self.ratio)
    }
}

/// Of each object its kind and delta, by its number.
fn lists(n: usize, mut object: impl FnMut(usize) -> (u8, f64)) -> Lists {
    let (kind, delta): (Vec<u8>, Vec<f64>) = (0..n).map(&mut object).unzip();
    Lists {
        kind,
        delta,
        start: (0..n).map(|i| i as f64 * 100.0).collect(),
        ratio: (0..n).map(|i| [1.0, 2.0, 0.5, 1.5][i * 7 % 4]).collect(),
    }
}

/// As many charts as have 16,384 objects together, so that no size is small enough to be known by heart by the processor.
fn random(n: usize) -> Vec<Lists> {
    let mut state = 0x9E37_79B9_7F4A_7C15_u64;
    let mut below = move |limit: u64| {
        state ^= state << 13;
        state ^= state >> 7;
        state ^= state << 17;
        (state >> 11) % limit
    };
    let mut object = move |_| {
        let kind = [0, 0, 0, 0, 0, 1, 1, 1, 1, 2][below(10) as usize];
        (kind, [100.0, 102.0, 150.0, 200.0][below(4) as usize])
    };
    (0..SIZES[2] / n).map(|_| lists(n, &mut object)).collect()
}

/// Streaks of 1 to so many, over and over, each a hit pattern: of 20 none is like one of the 15 before it.
fn streaks_up_to(longest: usize, n: usize) -> Lists {
    let streak = move |number| std::iter::repeat_n((number % 2) as u8, number % longest + 1);
    let mut kinds = (0..).flat_map(streak);
    lists(n, |_| (kinds.next().unwrap_or(0), 100.0))
}

/// Charts by their names.
type Sets = Vec<(&'static str, Vec<Lists>)>;

fn charts(n: usize) -> Sets {
    let falling = lists(n, |i| (0, (n - i) as f64 * 0.25));
    let alternating = lists(n, |i| ((i % 2) as u8, 100.0));
    vec![
        ("random", random(n)),
        ("one group of distinct falling deltas", vec![falling]),
        ("all objects one pattern", vec![alternating]),
        (
            "every hit pattern searching 15 back",
            vec![streaks_up_to(20, n)],
        ),
    ]
}

/// The same, and streaks of 1 to 3, which make the most hit patterns.
fn charts_and_most_hits(n: usize) -> Sets {
    let mut charts = charts(n);
    charts.push(("streaks of 1 to 3", vec![streaks_up_to(3, n)]));
    charts
}

/// A chart of the original's, its groups, and the number of the last one.
struct Original {
    chart: oracle::chart::Chart,
    rhythm: oracle::chart::Rhythm,
    last: usize,
}

impl Original {
    fn of(lists: &Lists) -> Self {
        let chart =
            oracle::chart::Chart::new(&lists.kind, &lists.start, &lists.delta, &lists.ratio);
        let rhythm = chart.rhythm();
        let last = rhythm.groups.len() - 1;
        Original {
            chart,
            rhythm,
            last,
        }
    }
}

type Work<'a> = Box<dyn FnMut() + 'a>;

/// The calls on all charts of a set.
fn original_works(charts: &[Original]) -> PerCall<Work<'_>> {
    [
        Box::new(move || charts.iter().for_each(|o| o.chart.process_color())),
        Box::new(move || {
            for o in charts {
                o.chart.process_color();
                black_box(o.chart.turns());
            }
        }),
        Box::new(move || {
            for o in charts {
                o.chart.process_color();
                black_box(o.chart.colour());
            }
        }),
        Box::new(move || charts.iter().for_each(|o| o.chart.process_rhythm())),
        Box::new(move || {
            for o in charts {
                o.chart.process_rhythm();
                black_box(o.rhythm.record(o.last, WINDOW));
            }
        }),
    ]
}

/// The memory that is used again from call to call.
#[derive(Default)]
struct Room {
    workspace: Workspace,
    encoding: Encoding,
    turns: Turns,
    values: Vec<f64>,
    rhythm: Rhythm,
}

/// One call on a chart, of whose groups the last has this number.
type Call = fn(&mut Room, &Chart, usize) -> Result<(), Refusal>;

const LIBRARY: PerCall<Call> = [
    |room, chart, _| room.workspace.encode_into(chart, BASE, &mut room.encoding),
    |room, chart, _| room.workspace.turns_into(chart, BASE, &mut room.turns),
    |room, chart, _| room.workspace.colour_into(chart, BASE, &mut room.values),
    |room, chart, _| room.workspace.rhythm_into(chart, BASE, &mut room.rhythm),
    |room, chart, last| {
        black_box(room.workspace.record(chart, BASE, last, WINDOW)?);
        Ok(())
    },
];

fn library_works<'a>(set: &'a [Lists], originals: &'a [Original]) -> PerCall<Work<'a>> {
    let charts: Vec<Chart> = set.iter().map(Lists::chart).collect();
    LIBRARY.map(|call| {
        let (charts, mut room) = (charts.clone(), Room::default());
        let all = move || {
            for (chart, original) in charts.iter().zip(originals) {
                call(&mut room, black_box(chart), original.last).expect("a good chart");
            }
        };
        Box::new(all) as Work
    })
}

/// Call by call, how often the library's time is in the original's.
fn ratios(set: &[Lists]) -> PerCall<f64> {
    let originals: Vec<Original> = set.iter().map(Original::of).collect();
    let mut original = original_works(&originals);
    let mut library = library_works(set, &originals);
    array::from_fn(|k| {
        let [theirs, ours] = medians(&mut original[k], &mut library[k]);
        theirs / ours
    })
}

/// Call by call, how often the library's time for a chart of the one set is in that for one of the other.
fn growth(small: &[Lists], large: &[Lists]) -> PerCall<f64> {
    let [few, many] = [small, large].map(|set| set.iter().map(Original::of).collect::<Vec<_>>());
    let mut one = library_works(small, &few);
    let mut other = library_works(large, &many);
    let charts = small.len() as f64 / large.len() as f64;
    array::from_fn(|k| {
        let [less, more] = medians(&mut one[k], &mut other[k]);
        more / less * charts
    })
}

type LimitedCall = fn(&mut Room, &Chart, Settings) -> Result<(), Refusal>;

const LIMITED: [&str; 3] = ["encode", "turns", "colour"];

/// The calls that encode: how often the library's time under the default search limit is in that under the largest.
fn limit_ratios(set: &[Lists]) -> [f64; LIMITED.len()] {
    let charts: Vec<Chart> = set.iter().map(Lists::chart).collect();
    let under = |call: LimitedCall, settings: Settings| {
        let (charts, mut room) = (&charts, Room::default());
        move || {
            for chart in charts {
                call(&mut room, black_box(chart), settings).expect("a good chart");
            }
        }
    };
    let calls: [LimitedCall; LIMITED.len()] = [
        |room, chart, set| room.workspace.encode_into(chart, set, &mut room.encoding),
        |room, chart, set| room.workspace.turns_into(chart, set, &mut room.turns),
        |room, chart, set| room.workspace.colour_into(chart, set, &mut room.values),
    ];
    calls.map(|call| {
        let largest = BASE.with_search_limit(64);
        let [less, more] = medians(&mut under(call, BASE), &mut under(call, largest));
        more / less
    })
}

/// Raw objects with these kinds, a delta apart, about the time 0; two more stand in front.
struct Raw {
    kind: Vec<u8>,
    time: Vec<f64>,
}

impl Raw {
    fn of(lists: &Lists) -> Self {
        let begin = -lists.delta.iter().sum::<f64>() / 2.0;
        let later = lists.delta.iter().scan(begin, |now, delta| {
            *now += delta;
            Some(*now)
        });
        Raw {
            kind: [0, 0].iter().chain(&lists.kind).copied().collect(),
            time: [begin - 100.0, begin].into_iter().chain(later).collect(),
        }
    }

    fn chart(&self) -> RawChart<'_> {
        RawChart::new(&self.kind, &self.time, RATE)
    }

    fn originals(&self) -> oracle::chart::Chart {
        oracle::chart::Chart::build(&self.kind, &self.time, RATE)
    }
}

/// Build, and build with colour, as an editor asks at each edit: how often the library's time is in the original's.
fn built_ratios(set: &[Lists]) -> [f64; 2] {
    let raws: Vec<Raw> = set.iter().map(Raw::of).collect();
    let (mut room, mut built) = (Room::default(), BuiltChart::default());
    [false, true].map(|coloured| {
        let mut original = || {
            for raw in &raws {
                let chart = raw.originals();
                if coloured {
                    chart.process_color();
                    black_box(chart.colour());
                }
                black_box(chart);
            }
        };
        let mut library = || {
            for raw in &raws {
                raw.chart()
                    .build_into(&mut built)
                    .expect("good raw objects");
                if coloured {
                    let chart = built.chart();
                    let done = room.workspace.colour_into(&chart, BASE, &mut room.values);
                    done.expect("a good chart");
                }
                black_box(&mut built);
            }
        };
        let [theirs, ours] = medians(&mut original, &mut library);
        theirs / ours
    })
}

fn row<const COLUMNS: usize>(numbers: [f64; COLUMNS]) -> String {
    numbers.map(|x| format!("{x:.1}")).join(" | ")
}

/// Prints what is measured of charts at each size.
fn print_by_size<const COLUMNS: usize>(
    title: &str,
    columns: [&str; COLUMNS],
    charts: impl Fn(usize) -> Sets,
    measured: impl Fn(&[Lists]) -> [f64; COLUMNS],
) {
    println!("{title}:\n\n| chart | objects | {} |", columns.join(" | "));
    println!("|---|---|{}", "---|".repeat(COLUMNS));
    let all = |n| charts(n).into_iter().map(move |chart| (n, chart));
    for (n, (name, set)) in SIZES.into_iter().flat_map(all) {
        println!("| {name} | {n} | {} |", row(measured(&set)));
    }
    println!();
}

fn print_growth() {
    println!("The library's time at 16,384 objects over that at 1,000:\n");
    println!("| chart | {} |", CALLS.join(" | "));
    println!("|---|{}", "---|".repeat(CALLS.len()));
    for ((name, small), (_, large)) in charts(SIZES[1]).iter().zip(charts(SIZES[2])) {
        println!("| {name} | {} |", row(growth(small, &large)));
    }
    println!();
}

fn main() {
    let title = "How many times as fast as the original";
    print_by_size(title, CALLS, charts, ratios);
    let title = "Of raw objects, how many times as fast as the original";
    print_by_size(title, ["build", "build and colour"], charts, built_ratios);
    print_growth();
    let title = "The library's time under a search limit of 64 over that under 16";
    print_by_size(title, LIMITED, charts_and_most_hits, limit_ratios);
    let title = "One lesson of 32 pairs, beside a stretch for each and one colour";
    let columns = [
        "times as fast as 32 stretches",
        "time in percent of colour's",
    ];
    print_by_size(title, columns, charts, |set| {
        lesson_ratios(&set.iter().map(Lists::chart).collect::<Vec<_>>())
    });
}
