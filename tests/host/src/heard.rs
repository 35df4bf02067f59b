//! What encode and colour answer on the tail of a chart.

use crate::chart::Chart;
use crate::colour::{colour, Coloured, Memory};
use crate::encode;
use crate::lent::{exact_sizes, Lent};

/// What the calls answer on one chart's tail; object 0 is the tail's first.
#[derive(Debug)]
pub struct Heard {
    pub opens: Vec<bool>,
    /// The objects of its hit pattern, by object; those before the tail are negative.
    pub holds: Vec<Vec<i64>>,
    pub interval: Vec<u8>,
    pub value: Vec<u64>,
}

/// Asks encode and colour, which must accept.
pub fn heard(chart: &Chart, tail: usize) -> Heard {
    let n = chart.size();
    let before = n - tail;
    let mut lent = Lent::new(exact_sizes(n), n);
    let encoded = encode(chart, &mut lent);
    assert_eq!(
        (encoded.refusal, encoded.place),
        (0, 0),
        "encode of {chart}"
    );
    let mut coloured = Memory::of_sizes([n, 8 * n, n]);
    let done = Coloured {
        refusal: 0,
        place: 0,
    };
    assert_eq!(colour(chart, &mut coloured), done, "colour of {chart}");
    let hit = lent.numbers[4].lent();
    let mut members = vec![Vec::new(); encoded.hit_patterns as usize];
    for (object, &number) in hit.iter().enumerate() {
        members[usize::from(number)].push(object as i64 - before as i64);
    }
    let tail = before..n;
    Heard {
        opens: tail
            .clone()
            .map(|i| i == 0 || hit[i] != hit[i - 1])
            .collect(),
        holds: tail
            .clone()
            .map(|i| members[usize::from(hit[i])].clone())
            .collect(),
        interval: lent.interval.lent()[before..].to_vec(),
        value: coloured.value.lent()[before..]
            .iter()
            .map(|x| x.to_bits())
            .collect(),
    }
}
