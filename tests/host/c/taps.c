/* taps from C and from C++, on a chart that has each class and a NonHit: groups that are known or open, and refusals.
 * Prints `ok`, or each line that fails. */
#include "dresserduck.h"

#define N 8
#include "lent.h"

#include <math.h>

/* Three notes near 100, a NonHit that may be anything, a rise to two notes whose pair is open, which is not looked at,
 * and two near 100. */
static const uint8_t kind[N] = {0, 1, 0, DRESSERDUCK_NON_HIT, 1, 1, 0, 0};
static const double start[N] = {0.0, 100.0, 200.0, 250.0, 400.0, 600.0, 700.0, 800.0};
static const double ratio[N] = {1.0, 1.0, 1.0, 1.0, 1.0, 1.0, 1.0, 1.0};
static double lowest[N], highest[N];

static void known_chart(void)
{
    static const double least[N] = {100.0, 100.0, 100.0, -5.0, 200.0, 203.0, 100.0, 101.0};
    static const double most[N] = {100.0, 101.0, 102.0, 1000.0, 201.0, 207.0, 101.0, 102.0};
    memcpy(lowest, least, sizeof lowest);
    memcpy(highest, most, sizeof highest);
}

static dresserduck_tapped taps(void)
{
    lend();
    return dresserduck_taps(kind, N, start, N, lowest, N, highest, N, ratio, N, default_settings, lent.pair, PLACES,
        lent.numbers[0], PLACES, lent.work, WORK_PLACES, lent.scratch, PLACES);
}

static void known(void)
{
    static const uint8_t pair[N] = {DRESSERDUCK_NEAR, DRESSERDUCK_NEAR, DRESSERDUCK_RISE, DRESSERDUCK_NO_PAIR,
        DRESSERDUCK_OPEN, DRESSERDUCK_NEITHER, DRESSERDUCK_NEAR, DRESSERDUCK_NO_PAIR};
    static const uint16_t group[N] = {0, 0, 0, DRESSERDUCK_NO_GROUP, 1, 2, 2, 2};
    known_chart();
    dresserduck_tapped got = taps();
    CHECK(got.refusal == DRESSERDUCK_ACCEPTED && got.place == 0 && got.open == 0 && got.groups == 3);
    CHECK(FILLED(lent.pair, pair) && FILLED(lent.numbers[0], group));
    CHECK(cleared());
}

/* The last pair is always looked at. */
static void not_known(void)
{
    static const uint8_t pair[N] = {DRESSERDUCK_NEAR, DRESSERDUCK_NEAR, DRESSERDUCK_RISE, DRESSERDUCK_NO_PAIR,
        DRESSERDUCK_OPEN, DRESSERDUCK_NEITHER, DRESSERDUCK_OPEN, DRESSERDUCK_NO_PAIR};
    known_chart();
    highest[N - 1] = 107.0;
    dresserduck_tapped got = taps();
    CHECK(got.refusal == DRESSERDUCK_ACCEPTED && got.place == 0 && got.open == 1 && got.groups == 0);
    CHECK(FILLED(lent.pair, pair) && all_sentinels(lent.numbers[0], sizeof lent.numbers[0]));
    CHECK(cleared());
}

/* Each choice of deltas at the ends of the ranges has the groups that are known. */
static void as_rhythm_gives_them(void)
{
    uint16_t group[N];
    known_chart();
    for (unsigned choice = 0; choice < 1u << N; choice++) {
        double delta[N];
        dresserduck_tapped told = taps();
        memcpy(group, lent.numbers[0], sizeof group);
        for (size_t i = 0; i < N; i++) {
            delta[i] = choice >> i & 1 ? highest[i] : lowest[i];
        }
        lend();
        dresserduck_grouped got = dresserduck_rhythm(kind, N, start, N, delta, N, ratio, N, default_settings, lent.numbers[0],
            PLACES, lent.numbers[1], PLACES, lent.work, WORK_PLACES, lent.scratch, PLACES);
        CHECK(got.refusal == DRESSERDUCK_ACCEPTED && got.groups == told.groups && FILLED(lent.numbers[0], group));
    }
}

static void refused(uint64_t refusal, size_t object, double low, double high)
{
    known_chart();
    lowest[object] = low;
    highest[object] = high;
    dresserduck_tapped got = taps();
    CHECK(got.refusal == refusal && got.place == object && got.open == 0 && got.groups == 0);
    CHECK(untouched());
}

/* Of a note and of the NonHit. */
static void refused_ends(void)
{
    for (size_t object = 2; object < 4; object++) {
        refused(DRESSERDUCK_LOWEST_ABOVE_HIGHEST, object, 100.5, 100.0);
        refused(DRESSERDUCK_BAD_DELTA, object, 100.0, NAN);
        refused(DRESSERDUCK_BAD_DELTA, object, -INFINITY, 100.0);
        refused(DRESSERDUCK_BAD_DELTA, object, 16777217.0, -16777217.0);
    }
}

int main(void)
{
    known();
    not_known();
    as_rhythm_gives_them();
    refused_ends();
    return finish();
}
