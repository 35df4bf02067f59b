//! Lists of values around a margin, drawn from a seed.

pub use crate::xorshift::Xorshift;

/// The value as it is or with its sign turned.
fn turned(random: &mut Xorshift, x: f64) -> f64 {
    match random.below(2) {
        0 => x,
        _ => -x,
    }
}

fn next_value(random: &mut Xorshift, value: f64, margin: f64) -> f64 {
    let away = value + turned(random, margin);
    let small = random.pick(&[0.0, 0.5, 2.5, 12.0]);
    match random.below(8) {
        0 => value,
        1 => away,
        2 => away.next_up(),
        3 => away.next_down(),
        4 => value + turned(random, small),
        5 => away + turned(random, small),
        6 => random.pick(&[0.0, -0.0, 3.3, 8.3, 100.0, 16_777_216.0, -16_777_216.0]),
        _ => value + turned(random, margin / 2.0),
    }
}

/// A list whose values lie about a margin from one to the next, and within the limits of a delta.
pub fn values(random: &mut Xorshift, count: usize, margin: f64) -> Vec<f64> {
    let mut value = random.pick(&[0.0, -0.0, 3.3, 100.0, -62.5]);
    let mut next = |_| {
        value = next_value(random, value, margin).clamp(-16_777_216.0, 16_777_216.0);
        value
    };
    (0..count).map(&mut next).collect()
}
