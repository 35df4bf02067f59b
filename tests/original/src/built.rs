//! Raw objects put to build, and the chart that comes of it to all other calls.

use host_tests::build::{accepted, refused, Raw};
use host_tests::plain_build;
use host_tests::samples::Xorshift;

use crate::answers::{compare, Asked};
use crate::original::Original;

/// What build and all calls on what it built were asked about. A difference panics. The original refuses nothing: of raw objects
/// that are refused, the plain version tells the number and the place.
pub fn compare_built(raw: &Raw, random: &mut Xorshift) -> Asked {
    let n = raw.built_size();
    let sizes = [(); 4].map(|()| n + random.below(8));
    if let Some((number, place)) = plain_build::refusal(raw) {
        refused(raw, sizes, number, place);
        return Asked {
            objects: n,
            ..Asked::default()
        };
    }
    let original = Original::built(raw);
    let chart = original.lists();
    accepted(raw, sizes, &chart);
    let mut asked = compare(&chart, &original, random);
    asked.objects += n;
    asked
}
