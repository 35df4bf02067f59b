//! The scope's rule for the groups of intervals, value by value. It knows nothing of the library.

/// How a value stands to the one before it.
#[derive(Clone, Copy, PartialEq, Eq, Debug)]
pub enum Step {
    Near,
    Rise,
    Neither,
}

/// Near goes first: by rounding, a step can be both near and a rise.
pub fn step(before: f64, after: f64, margin: f64) -> Step {
    if (before - after).abs() <= margin {
        Step::Near
    } else if after > before + margin {
        Step::Rise
    } else {
        Step::Neither
    }
}

/// Whether each value opens a group. One that doesn't have to is decided by the step that follows it; the last one, which
/// has none, by the step before it.
fn opens(values: &[f64], margin: f64) -> Vec<bool> {
    let n = values.len();
    let mut answers = Vec::new();
    let mut has_to = true;
    for i in 0..n {
        let following = values.get(i + 1).map(|&next| step(values[i], next, margin));
        let (here, next) = match following {
            _ if has_to => (true, false),
            Some(Step::Near) => (false, false),
            Some(Step::Rise) => (false, true),
            Some(Step::Neither) => (true, false),
            None => (
                n <= 2 || step(values[i], values[i - 1], margin) != Step::Near,
                false,
            ),
        };
        answers.push(here);
        has_to = next;
    }
    answers
}

/// The number of each value's group.
pub fn groups(values: &[f64], margin: f64) -> Vec<u16> {
    let mut opened = 0;
    let number = |here: bool| {
        opened += u16::from(here);
        opened - 1
    };
    opens(values, margin).into_iter().map(number).collect()
}
