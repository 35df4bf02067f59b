/* Every refusal from C, by every call on a chart that can give it: its number and place, and no lent place written.
 * Prints `ok`, or each line that fails. */
#include "dresserduck.h"

#define N (DRESSERDUCK_LARGEST_CHART + 1)
#include "lent.h"

#include <math.h>

#define FEW 4

static uint8_t kind[N];
static double start[N], delta[N], ratio[N];
static dresserduck_settings settings;

static void good_chart(void)
{
    for (size_t i = 0; i < N; i++) {
        kind[i] = (uint8_t)(i % 2);
        start[i] = (double)i;
        delta[i] = 100.0;
        ratio[i] = 1.0;
    }
    settings = default_settings;
    lend();
}

/* A chart of n objects that has this many ratios, and the settings. */
#define CHART kind, n, start, n, delta, n, ratio, ratios, settings
#define TAP_CHART kind, n, start, n, delta, n, delta, n, ratio, ratios, settings

/* All eight refuse it, taps with the delta for the lowest and the highest, with this many places to work in. */
static void expect(uint64_t refusal, uint64_t place, size_t n, size_t ratios, size_t places)
{
#define WORK lent.work, places, lent.scratch, n
    static const uint64_t offset[1] = {0}, length[1] = {1};
    uint16_t(*numbers)[PLACES] = lent.numbers;
    dresserduck_encoded encoded = dresserduck_encode(CHART, numbers[0], n, numbers[1], n, numbers[2], n, numbers[3], n, numbers[4], n,
        lent.interval, n, WORK);
    CHECK(encoded.refusal == refusal && encoded.place == place && encoded.hit_patterns == 0);
    dresserduck_turned turned = dresserduck_turns(CHART, numbers[0], n, numbers[1], n, WORK);
    CHECK(turned.refusal == refusal && turned.place == place);
    dresserduck_coloured coloured = dresserduck_colour(CHART, lent.value, n, WORK);
    CHECK(coloured.refusal == refusal && coloured.place == place);
    dresserduck_stretched stretched = dresserduck_stretch(CHART, 0, 1, lent.value, n, WORK);
    CHECK(stretched.refusal == refusal && stretched.place == place && stretched.mean == 0.0 && stretched.tenths == 0);
    dresserduck_lessoned lessoned = dresserduck_lesson(
        CHART, offset, 1, length, 1, lent.value, n, lent.mean, 1, lent.tenths, 1, WORK);
    CHECK(lessoned.refusal == refusal && lessoned.place == place);
    dresserduck_grouped grouped = dresserduck_rhythm(CHART, numbers[0], n, numbers[1], n, WORK);
    CHECK(grouped.refusal == refusal && grouped.place == place && grouped.groups == 0 && grouped.pattern_groups == 0);
    dresserduck_recorded recorded = dresserduck_record(CHART, 0, 50.0, WORK);
    CHECK(recorded.refusal == refusal && recorded.place == place && recorded.note_count == 0);
    dresserduck_tapped tapped = dresserduck_taps(TAP_CHART, lent.pair, n, numbers[0], n, WORK);
    CHECK(tapped.refusal == refusal && tapped.place == place && tapped.open == 0 && tapped.groups == 0);
    CHECK(untouched());
#undef WORK
}

/* Though the settings are bad. */
static void by_the_host(void)
{
    good_chart();
    settings.margin = NAN;
    expect(DRESSERDUCK_TOO_MANY_OBJECTS, 0, N, N, 8 * N);
    expect(DRESSERDUCK_LENGTHS_DIFFER, 0, FEW, FEW - 1, 8 * FEW);
    expect(DRESSERDUCK_SLICE_TOO_SHORT, 0, FEW, FEW, 8 * FEW - 1);
}

/* From the last refusal to the first, so that each is seen to come before those that apply already. */
static void by_the_chart(void)
{
    good_chart();
    ratio[2] = 0.0;
    expect(DRESSERDUCK_BAD_RATIO, 2, FEW, FEW, 8 * FEW);
    delta[2] = -INFINITY;
    expect(DRESSERDUCK_BAD_DELTA, 2, FEW, FEW, 8 * FEW);
    start[2] = NAN;
    expect(DRESSERDUCK_BAD_START, 2, FEW, FEW, 8 * FEW);
    kind[2] = 3;
    expect(DRESSERDUCK_BAD_KIND, 2, FEW, FEW, 8 * FEW);
    settings.tolerance = NAN;
    expect(DRESSERDUCK_BAD_SETTINGS, 0, FEW, FEW, 8 * FEW);
}

static void by_the_settings(void)
{
    const size_t n = FEW, ratios = FEW;
    good_chart();
    dresserduck_stretched stretched = dresserduck_stretch(CHART, 3, 3, lent.value, n, lent.work, 8 * n, lent.scratch, n);
    CHECK(stretched.refusal == DRESSERDUCK_BAD_STRETCH && stretched.place == 0 && stretched.mean == 0.0 && stretched.tenths == 0);
    kind[1] = kind[2] = DRESSERDUCK_NON_HIT;
    stretched = dresserduck_stretch(CHART, 1, 3, lent.value, n, lent.work, 8 * n, lent.scratch, n);
    CHECK(stretched.refusal == DRESSERDUCK_NO_NOTE && stretched.place == 0 && stretched.mean == 0.0 && stretched.tenths == 0);
    dresserduck_recorded recorded = dresserduck_record(CHART, FEW, NAN, lent.work, 8 * n, lent.scratch, n);
    CHECK(recorded.refusal == DRESSERDUCK_BAD_WINDOW && recorded.place == 0 && recorded.note_count == 0);
    recorded = dresserduck_record(CHART, FEW, 50.0, lent.work, 8 * n, lent.scratch, n);
    CHECK(recorded.refusal == DRESSERDUCK_BAD_GROUP && recorded.place == 0 && recorded.note_count == 0);
    CHECK(untouched());
}

/* Of these four objects the first and the last are notes. */
static void expect_of_lesson(uint64_t refusal, uint64_t place, const uint64_t *offset, const uint64_t *length, size_t pairs)
{
    const size_t n = FEW, ratios = FEW;
    good_chart();
    kind[1] = kind[2] = DRESSERDUCK_NON_HIT;
    dresserduck_lessoned got = dresserduck_lesson(CHART, offset, pairs, length, pairs, lent.value, n, lent.mean, pairs, lent.tenths,
        pairs, lent.work, 8 * n, lent.scratch, n);
    CHECK(got.refusal == refusal && got.place == place);
    CHECK(untouched());
}

static void by_the_lesson(void)
{
    static const uint64_t equal[2] = {1, 1}, rising[2] = {0, 1}, whole[2] = {4, 4}, noteless[2] = {4, 2};
    expect_of_lesson(DRESSERDUCK_BAD_LESSON, 0, equal, whole, 2);
    expect_of_lesson(DRESSERDUCK_BAD_STRETCH, 1, rising, whole, 2);
    expect_of_lesson(DRESSERDUCK_NO_NOTE, 1, rising, noteless, 2);
}

int main(void)
{
    by_the_host();
    by_the_chart();
    by_the_settings();
    by_the_lesson();
    return finish();
}
