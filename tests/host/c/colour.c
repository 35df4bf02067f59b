/* colour and stretch from C and from C++: values by the scope's formulas, means below zero and half-way between tenths, and NonHits in a
 * stretch.
 * Prints `ok`, or each line that fails. */
#include "dresserduck.h"

#define N 3
#include "lent.h"

/* Start, delta and ratio are lent in this order, and the ratio alone tells: 4.0 makes the last object's penalty 1.0 - 4.0 / 2.0 * 0.8. */
static uint8_t kind[N] = {DRESSERDUCK_CENTER, DRESSERDUCK_CENTER, DRESSERDUCK_RIM};
static const double start[N] = {0.0, 100.0, 200.0};
static const double delta[N] = {100.0, 100.0, 100.0};
static double ratio[N] = {4.0, 1.0, 4.0};

static void check_values(void)
{
    double value = new_value();
    double want[N] = {0.0, 0.0, 0.0};
    want[0] = value;
    want[2] = value * (1.0 - 4.0 / 2.0 * 0.8);
    CHECK(FILLED(lent.value, want));
    CHECK(cleared());
}

static void coloured(void)
{
    lend();
    dresserduck_coloured got = dresserduck_colour(
        kind, N, start, N, delta, N, ratio, N, default_settings, lent.value, PLACES, lent.work, WORK_PLACES, lent.scratch, PLACES);
    CHECK(got.refusal == DRESSERDUCK_ACCEPTED && got.place == 0);
    check_values();
}

static dresserduck_stretched stretch(size_t a, size_t b)
{
    lend();
    return dresserduck_stretch(kind, N, start, N, delta, N, ratio, N, default_settings, a, b, lent.value, PLACES, lent.work,
        WORK_PLACES, lent.scratch, PLACES);
}

static void stretched(void)
{
    dresserduck_stretched got = stretch(1, 3);
    CHECK(got.refusal == DRESSERDUCK_ACCEPTED && got.place == 0);
    CHECK(got.mean == new_value() * (1.0 - 4.0 / 2.0 * 0.8) / 2.0);
    CHECK(got.mean > -1.5 && got.mean < -1.4 && got.tenths == -15);
    check_values();
    got = stretch(0, 1);
    CHECK(got.mean == new_value() && got.tenths == 50);
}

static void expect_refused(uint64_t refusal, size_t a, size_t b)
{
    dresserduck_stretched got = stretch(a, b);
    CHECK(got.refusal == refusal && got.place == 0 && got.mean == 0.0 && got.tenths == 0);
    CHECK(untouched());
}

/* All ratios are the one with these bits, by which the mean of all three objects lies half-way between two tenths: the even one is
 * shown. */
static void half_way(uint64_t equal_ratio, double mean, int64_t tenths)
{
    ratio[0] = ratio[1] = ratio[2] = dresserduck_double(equal_ratio);
    dresserduck_stretched got = stretch(0, 3);
    CHECK(got.refusal == DRESSERDUCK_ACCEPTED && got.mean == mean && got.tenths == tenths);
}

/* With a NonHit for its last object: it has a value, and the mean of a stretch is that of the notes before it. */
static void struck(void)
{
    kind[2] = DRESSERDUCK_NON_HIT;
    dresserduck_stretched got = stretch(0, 3);
    CHECK(got.refusal == DRESSERDUCK_ACCEPTED && got.place == 0);
    CHECK(lent.value[2] != 0.0 && got.mean == new_value() / 2.0 && got.tenths == 25);
    expect_refused(DRESSERDUCK_NO_NOTE, 2, 3);
    expect_refused(DRESSERDUCK_BAD_STRETCH, 2, 4);
    expect_refused(DRESSERDUCK_BAD_STRETCH, 3, 3);
}

int main(void)
{
    coloured();
    stretched();
    expect_refused(DRESSERDUCK_BAD_STRETCH, 0, 4);
    half_way(0x40127EAA3979F8FEu, 0.25, 2);
    half_way(0x3FF9CFF0152703C6u, 2.25, 22);
    half_way(0x401E89586DAA310Au, -1.75, -18);
    struck();
    return finish();
}
