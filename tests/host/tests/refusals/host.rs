//! Refusals 1, 2 and 3: how long the slices are.

use crate::{accepted, refused, roomy, Encode, Lesson, OnChart, Turns};
use host_tests::chart::Chart;
use host_tests::LARGEST_CHART;

/// The three input slices beside the kinds.
fn lists(chart: &mut Chart) -> [&mut Vec<f64>; 3] {
    [&mut chart.start, &mut chart.delta, &mut chart.ratio]
}

#[test]
fn largest_chart() {
    accepted(&Chart::of_size(LARGEST_CHART - 1));
    accepted(&Chart::of_size(LARGEST_CHART));
    // 65,536 and one more are 0 and 1 to a u16
    for n in [
        LARGEST_CHART + 1,
        LARGEST_CHART + 2,
        32_768,
        65_535,
        65_536,
        65_537,
    ] {
        refused(&Chart::of_size(n), n, 1, 0);
    }
}

#[test]
fn one_input_of_another_length() {
    for n in [1, 2, 9, LARGEST_CHART] {
        for which in 0..3 {
            let mut short = Chart::of_size(n);
            lists(&mut short)[which].pop();
            refused(&short, n, 2, 0);
            let mut long = Chart::of_size(n);
            lists(&mut long)[which].push(1.0);
            refused(&long, n, 2, 0);
        }
    }
}

/// Kinds one fewer or one more than the rest; from none to one too.
#[test]
fn kinds_of_another_length() {
    for n in [1, 2, 9, LARGEST_CHART] {
        let mut short = Chart::of_size(n);
        short.kind.pop();
        refused(&short, n, 2, 0);
    }
    for n in [0, 1, 2, 9, LARGEST_CHART - 1] {
        let mut long = Chart::of_size(n);
        long.kind.push(0);
        refused(&long, n + 1, 2, 0);
    }
}

/// One list shorter and another longer by as much, so that the lengths' sum is as it should be.
#[test]
fn two_inputs_of_other_lengths() {
    for shorter in 0..3 {
        for longer in (0..3).filter(|&which| which != shorter) {
            let mut chart = Chart::of_size(9);
            lists(&mut chart)[shorter].pop();
            lists(&mut chart)[longer].push(1.0);
            refused(&chart, 9, 2, 0);
        }
    }
}

/// No kinds, and one value in one other list.
#[test]
fn values_without_kinds() {
    for which in 0..3 {
        let mut chart = Chart::of_size(0);
        lists(&mut chart)[which].push(1.0);
        refused(&chart, 0, 2, 0);
    }
}

/// Each slice of the call in turn.
fn each_too_short<C: OnChart>(n: usize) {
    let chart = Chart::of_size(n);
    for slice in 0..C::exact(n).as_mut().len() {
        let mut sizes = C::exact(n);
        sizes.as_mut()[slice] -= 1;
        C::refused(&chart, sizes, 3, 0);
        // room in the others does not help
        let mut others = roomy::<C>(n, 70);
        others.as_mut()[slice] = sizes.as_mut()[slice];
        C::refused(&chart, others, 3, 0);
        sizes.as_mut()[slice] = 0;
        C::refused(&chart, sizes, 3, 0);
    }
}

#[test]
fn one_lent_slice_too_short() {
    for n in [1, 2, 9, LARGEST_CHART] {
        accepted(&Chart::of_size(n));
        each_too_short::<Encode>(n);
        each_too_short::<Turns>(n);
        each_too_short::<Lesson>(n);
        refused(&Chart::of_size(n), n - 1, 3, 0);
    }
}

/// The call's work slice has this count.
fn refused_for_work<C: OnChart>(chart: &Chart, work: usize) {
    let mut sizes = C::exact(chart.size());
    let slices = sizes.as_mut().len();
    sizes.as_mut()[slices - 2] = work;
    C::refused(chart, sizes, 3, 0);
}

/// Counts that are long enough only to arithmetic of 16 bits: 8n is 65,536 for n = 8,192.
#[test]
fn work_of_a_wrapped_count() {
    let n = 8_192;
    let chart = Chart::of_size(n);
    for work in [0, 1, n, 7 * n, 8 * n - 1] {
        refused_for_work::<Encode>(&chart, work);
        refused_for_work::<Turns>(&chart, work);
        refused_for_work::<Lesson>(&chart, work);
    }
}

/// In all slices of the call, and in each in turn.
fn accepted_with_room<C: OnChart>(n: usize) {
    let chart = Chart::of_size(n);
    C::accepted(&chart, roomy::<C>(n, 11));
    for slice in 0..C::exact(n).as_mut().len() {
        let mut sizes = C::exact(n);
        sizes.as_mut()[slice] += 1;
        C::accepted(&chart, sizes);
    }
}

#[test]
fn lent_slices_with_room() {
    for n in [0, 1, 2, 9, LARGEST_CHART] {
        accepted_with_room::<Encode>(n);
        accepted_with_room::<Turns>(n);
        accepted_with_room::<Lesson>(n);
    }
}
