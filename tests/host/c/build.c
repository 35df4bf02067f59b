/* build from C and from C++: a chart with no two lists the same, up to two raw objects, and every refusal with nothing written.
 * Prints `ok`, or each line that fails. */
#include "dresserduck.h"

#define N 5
#include "lent.h"

#include <math.h>

/* raw objects */
#define M (N + 2)

static uint8_t raw_kind[DRESSERDUCK_LARGEST_RAW_CHART + 1];
static double raw_time[DRESSERDUCK_LARGEST_RAW_CHART + 1];

/* Neither the first two kinds nor the first time is read. */
static void good_objects(void)
{
    static const uint8_t kinds[M] = {9, 9, 0, 1, 2, 1, 0};
    static const double times[M] = {NAN, 0.0, 150.0, 300.0, 600.0, 450.0, 450.0};
    memcpy(raw_kind, kinds, sizeof kinds);
    memcpy(raw_time, times, sizeof times);
    lend();
}

/* With this many kinds and times, and this many places in the ratios; the others have one more than needed. */
static dresserduck_built build(size_t kinds, size_t times, double rate, size_t ratios)
{
    return dresserduck_build(raw_kind, kinds, raw_time, times, rate, lent.built_kind, PLACES, lent.built[0], PLACES,
        lent.built[1], PLACES, lent.built[2], ratios);
}

static void built(void)
{
    static const uint8_t kinds[N] = {0, 1, 2, 1, 0};
    static const double start[N] = {100.0, 200.0, 400.0, 300.0, 300.0};
    static const double delta[N] = {100.0, 100.0, 200.0, -100.0, 0.0};
    /* of the quotients 1, 2, -1/2 and -0 */
    static const double ratio[N] = {1.0, 1.0, 2.0, 1.0 / 3.0, 1.0 / 3.0};
    good_objects();
    dresserduck_built got = build(M, M, 1.5, PLACES);
    CHECK(got.refusal == DRESSERDUCK_ACCEPTED && got.place == 0 && got.objects == N);
    CHECK(FILLED(lent.built_kind, kinds));
    CHECK(FILLED(lent.built[0], start) && FILLED(lent.built[1], delta) && FILLED(lent.built[2], ratio));
}

/* Up to two raw objects are not read, and build none. */
static void built_of_none(void)
{
    good_objects();
    raw_time[1] = NAN;
    for (size_t m = 0; m <= 2; m++) {
        dresserduck_built got = build(m, m, 4.0, 0);
        CHECK(got.refusal == DRESSERDUCK_ACCEPTED && got.place == 0 && got.objects == 0);
        CHECK(build(m, m, -1.0, 0).refusal == DRESSERDUCK_BAD_RATE);
    }
    CHECK(untouched());
}

static void expect(dresserduck_built got, uint64_t refusal, uint64_t place)
{
    CHECK(got.refusal == refusal && got.place == place && got.objects == 0);
    CHECK(untouched());
}

/* From the last refusal to the first, so that each is seen to come before those that apply already. */
static void refused(void)
{
    const size_t too_many = DRESSERDUCK_LARGEST_RAW_CHART + 1;
    good_objects();
    for (size_t i = 0; i < 4; i++) {
        raw_time[i] = -16777216.0;
    }
    raw_time[4] = 16777216.0;
    expect(build(M, M, 1.0, N), DRESSERDUCK_BAD_DELTA, 2);
    raw_time[4] = 16777217.0;
    expect(build(M, M, 1.0, N), DRESSERDUCK_BAD_START, 2);
    raw_kind[4] = 3;
    expect(build(M, M, 1.0, N), DRESSERDUCK_BAD_KIND, 2);
    expect(build(M, M, NAN, N), DRESSERDUCK_BAD_RATE, 0);
    expect(build(M, M, 4.5, N - 1), DRESSERDUCK_SLICE_TOO_SHORT, 0);
    expect(build(M, M - 1, 4.5, N - 1), DRESSERDUCK_LENGTHS_DIFFER, 0);
    expect(build(too_many, M - 1, 4.5, N - 1), DRESSERDUCK_TOO_MANY_OBJECTS, 0);
    CHECK(DRESSERDUCK_LARGEST_RAW_CHART == DRESSERDUCK_LARGEST_CHART + 2);
}

int main(void)
{
    built();
    built_of_none();
    refused();
    return finish();
}
