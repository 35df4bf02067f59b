//! Calls of rhythm and record with known memory, and a look at everything that they may have written.

use crate::chart::Chart;
use crate::lent::{exact_four, roomy_four, TwoNumbers};
use crate::plain_rhythm::Groups;
use crate::rhythm::{record, rhythm, Grouped, Recorded};

/// As much memory as n objects need.
pub fn exact(n: usize) -> TwoNumbers {
    TwoNumbers::of_sizes(exact_four(n), n)
}

/// Some more.
pub fn roomy(n: usize) -> TwoNumbers {
    TwoNumbers::of_sizes(roomy_four(n), n)
}

/// The chart is accepted, with exactly enough memory and with some to spare, and has these groups.
#[track_caller]
pub fn check_rhythm(chart: &Chart, groups: &Groups) {
    let numbers = groups.numbers();
    let want = Grouped {
        refusal: 0,
        place: 0,
        groups: groups.objects.len() as u64,
        pattern_groups: groups.patterns.len() as u64,
    };
    for lent in [exact(chart.size()), roomy(chart.size())] {
        let mut memory = lent.clone();
        assert_eq!(rhythm(chart, &mut memory), want, "{chart}");
        let after = lent.filled(&numbers);
        assert_eq!(memory.bits(), after.bits(), "{chart}");
    }
}

/// So it has this record.
#[track_caller]
pub fn check_record(chart: &Chart, groups: &Groups, group: usize, window: f64) -> Recorded {
    let want = groups.record(group, window);
    for lent in [exact(chart.size()), roomy(chart.size())] {
        let mut memory = lent.clone();
        let got = record(chart, group, window, &mut memory);
        assert_eq!(got, want, "group {group}, window {window:?} of {chart}");
        let after = lent.cleared(chart.size());
        assert_eq!(memory.bits(), after.bits(), "group {group} of {chart}");
    }
    want
}

/// rhythm, or record of this group with this window, is refused, and all memory is as it was lent.
#[track_caller]
pub fn refused(
    chart: &Chart,
    of: Option<(usize, f64)>,
    lent: TwoNumbers,
    refusal: u64,
    place: u64,
) {
    let mut memory = lent.clone();
    match of {
        None => {
            let want = Grouped {
                refusal,
                place,
                groups: 0,
                pattern_groups: 0,
            };
            assert_eq!(rhythm(chart, &mut memory), want, "{chart}");
        }
        Some((group, window)) => {
            let want = Recorded {
                refusal,
                place,
                ..Recorded::default()
            };
            let got = record(chart, group, window, &mut memory);
            assert_eq!(got, want, "group {group}, window {window:?} of {chart}");
        }
    }
    assert_eq!(memory.bits(), lent.bits(), "{of:?} of {chart}");
}
