//! Lists a chart's hit patterns and marks each whose notes have a mean colour value above a limit.
//!
//! usage: marks LIMIT < chart      a line an object: d, k or n, then its start, delta and ratio

use std::env;
use std::error::Error;
use std::io;

use dresserduck::{Chart, Refusal, Settings, Stretch, Workspace, CENTER, NON_HIT, RIM};

#[derive(Default)]
struct Lists {
    kind: Vec<u8>,
    start: Vec<f64>,
    delta: Vec<f64>,
    ratio: Vec<f64>,
}

/// A letter that is no kind becomes one that the library refuses.
fn kind_of(letter: &str) -> u8 {
    match letter {
        "d" => CENTER,
        "k" => RIM,
        "n" => NON_HIT,
        _ => u8::MAX,
    }
}

/// Kind, start, delta and ratio of a line; none if it is not a letter and three numbers.
fn object_of(line: &str) -> Option<(u8, [f64; 3])> {
    let mut words = line.split_whitespace();
    let kind = kind_of(words.next()?);
    let mut number = || words.next()?.parse().ok();
    let numbers = [number()?, number()?, number()?];
    words.next().is_none().then_some((kind, numbers))
}

fn read_chart() -> Result<Lists, Box<dyn Error>> {
    let mut lists = Lists::default();
    for line in io::stdin().lines() {
        let line = line?;
        let object = object_of(&line);
        let (kind, [start, delta, ratio]) = object.ok_or_else(|| {
            let place = lists.kind.len();
            format!("object {place} is no letter and three numbers")
        })?;
        lists.kind.push(kind);
        lists.start.push(start);
        lists.delta.push(delta);
        lists.ratio.push(ratio);
    }
    Ok(lists)
}

fn told(stretch: Stretch, limit: f64) -> String {
    let mark = if stretch.mean > limit { " *" } else { "" };
    format!("tenths {}{mark}", stretch.tenths)
}

fn print_marks(chart: &Chart, limit: f64) -> Result<(), Refusal> {
    let (mut workspace, settings) = (Workspace::new(), Settings::default());
    let encoding = workspace.encode(chart, settings)?;
    println!("{} hit patterns", encoding.hit_patterns);
    for objects in encoding.hit_pattern_objects() {
        let (a, b) = (objects.start, objects.end);
        let said = match workspace.stretch(chart, settings, objects) {
            Err(Refusal::NoNote) => String::from("no note"),
            stretch => told(stretch?, limit),
        };
        println!("{a} to {b}: interval {}, {said}", encoding.interval[a]);
    }
    Ok(())
}

fn main() -> Result<(), Box<dyn Error>> {
    let limit = env::args().nth(1).and_then(|word| word.parse().ok());
    let limit = limit.ok_or("usage: marks LIMIT < chart")?;
    let lists = read_chart()?;
    let chart = Chart::new(&lists.kind, &lists.start, &lists.delta, &lists.ratio);
    print_marks(&chart, limit).map_err(|refusal| refusal.to_string().into())
}
