/* All nine calls on heap memory of exactly the size that they need, for a tool that watches the heap's bounds. Those on a chart have
 * the default settings, the narrowest and the widest. Prints `ok`, or each line that fails. */
#include "dresserduck.h"

#include "check.h"

#include <stdlib.h>

/* The chart's lists, each a block of its own, and the settings for it. */
struct chart {
    size_t n;
    dresserduck_settings settings;
    uint8_t *kind;
    double *start, *delta, *ratio;
};

/* At least a byte, so that it isn't null. */
static void *block(size_t count, size_t size)
{
    void *memory = count * size > 0 ? malloc(count * size) : calloc(1, 1);
    if (memory == NULL) {
        abort();
    }
    return memory;
}

static struct chart chart_of(size_t n)
{
    static const uint8_t kinds[7] = {0, 1, 1, 0, 0, 2, 1};
    struct chart c;
    c.n = n;
    c.settings = default_settings;
    c.kind = (uint8_t *)block(n, sizeof *c.kind);
    c.start = (double *)block(n, sizeof *c.start);
    c.delta = (double *)block(n, sizeof *c.delta);
    c.ratio = (double *)block(n, sizeof *c.ratio);
    for (size_t i = 0; i < n; i++) {
        c.kind[i] = kinds[i % 7];
        c.start[i] = (double)i * 100.0;
        c.delta[i] = (double)((n - i) % 50) * 1.5;
        c.ratio[i] = i % 3 == 0 ? 1.0 : 1.5;
    }
    return c;
}

/* Builds the chart anew, of m raw objects in two blocks of their own. */
static void build_exactly(const struct chart *c, size_t m)
{
    uint8_t *kinds = (uint8_t *)block(m, sizeof *kinds);
    double *times = (double *)block(m, sizeof *times);
    for (size_t i = 0; i < m; i++) {
        kinds[i] = (uint8_t)(i % 3);
        times[i] = (double)(i * i % 1000);
    }
    dresserduck_built got =
        dresserduck_build(kinds, m, times, m, 0.75, c->kind, c->n, c->start, c->n, c->delta, c->n, c->ratio, c->n);
    CHECK(got.refusal == DRESSERDUCK_ACCEPTED && got.objects == c->n);
    free(kinds);
    free(times);
}

#define CHART c->kind, c->n, c->start, c->n, c->delta, c->n, c->ratio, c->n, c->settings

static void encode_exactly(const struct chart *c, uint16_t *work, double *scratch)
{
    uint16_t *numbers[5];
    uint8_t *interval = (uint8_t *)block(c->n, sizeof *interval);
    for (size_t i = 0; i < 5; i++) {
        numbers[i] = (uint16_t *)block(c->n, sizeof *numbers[i]);
    }
    CHECK(dresserduck_encode(CHART, numbers[0], c->n, numbers[1], c->n, numbers[2], c->n, numbers[3], c->n, numbers[4], c->n,
              interval, c->n, work, 8 * c->n, scratch, c->n).refusal == DRESSERDUCK_ACCEPTED);
    for (size_t i = 0; i < 5; i++) {
        free(numbers[i]);
    }
    free(interval);
}

static void turn_exactly(const struct chart *c, uint16_t *work, double *scratch)
{
    uint16_t *previous = (uint16_t *)block(c->n, sizeof *previous);
    uint16_t *next = (uint16_t *)block(c->n, sizeof *next);
    dresserduck_turned got = dresserduck_turns(CHART, previous, c->n, next, c->n, work, 8 * c->n, scratch, c->n);
    CHECK(got.refusal == DRESSERDUCK_ACCEPTED);
    free(previous);
    free(next);
}

/* How many objects there are up to the last note. */
static size_t through_last_note(const struct chart *c)
{
    size_t count = c->n;
    for (; count > 0 && c->kind[count - 1] == DRESSERDUCK_NON_HIT; count--) {}
    return count;
}

/* What is refused of the whole chart as a stretch. */
static uint64_t whole_refusal(const struct chart *c)
{
    if (c->n == 0) {
        return DRESSERDUCK_BAD_STRETCH;
    }
    return through_last_note(c) == 0 ? DRESSERDUCK_NO_NOTE : DRESSERDUCK_ACCEPTED;
}

static void score_exactly(const struct chart *c, uint16_t *work, double *scratch)
{
    double *value = (double *)block(c->n, sizeof *value);
    CHECK(dresserduck_colour(CHART, value, c->n, work, 8 * c->n, scratch, c->n).refusal == DRESSERDUCK_ACCEPTED);
    CHECK(dresserduck_stretch(CHART, 0, c->n, value, c->n, work, 8 * c->n, scratch, c->n).refusal == whole_refusal(c));
    free(value);
}

/* Of so many pairs, each marks the chart from one object to its end. */
static void mark_exactly(const struct chart *c, size_t pairs, uint16_t *work, double *scratch)
{
    const size_t noted = through_last_note(c);
    double *value = (double *)block(c->n, sizeof *value);
    double *mean = (double *)block(pairs, sizeof *mean);
    int64_t *tenths = (int64_t *)block(pairs, sizeof *tenths);
    uint64_t *offset = (uint64_t *)block(pairs, sizeof *offset);
    uint64_t *length = (uint64_t *)block(pairs, sizeof *length);
    for (size_t i = 0; i < pairs; i++) {
        offset[i] = i;
        length[i] = c->n - i;
    }
    dresserduck_lessoned got = dresserduck_lesson(
        CHART, offset, pairs, length, pairs, value, c->n, mean, pairs, tenths, pairs, work, 8 * c->n, scratch, c->n);
    CHECK(got.refusal == (noted < pairs ? DRESSERDUCK_NO_NOTE : DRESSERDUCK_ACCEPTED) && got.place == (noted < pairs ? noted : 0));
    free(value);
    free(mean);
    free(tenths);
    free(offset);
    free(length);
}

/* Without a pair, and with as many as there may be. */
static void teach_exactly(const struct chart *c, uint16_t *work, double *scratch)
{
    const size_t most = DRESSERDUCK_MOST_PAIRS;
    mark_exactly(c, 0, work, scratch);
    mark_exactly(c, c->n < most ? c->n : most, work, scratch);
}

static void group_exactly(const struct chart *c, uint16_t *work, double *scratch)
{
    uint16_t *group = (uint16_t *)block(c->n, sizeof *group);
    uint16_t *pattern = (uint16_t *)block(c->n, sizeof *pattern);
    dresserduck_grouped got = dresserduck_rhythm(CHART, group, c->n, pattern, c->n, work, 8 * c->n, scratch, c->n);
    CHECK(got.refusal == DRESSERDUCK_ACCEPTED);
    for (uint64_t g = 0; g <= got.groups; g++) {
        uint64_t want = g < got.groups ? DRESSERDUCK_ACCEPTED : DRESSERDUCK_BAD_GROUP;
        CHECK(dresserduck_record(CHART, (size_t)g, 50.0, work, 8 * c->n, scratch, c->n).refusal == want);
    }
    free(group);
    free(pattern);
}

/* Where the ranges have no width the groups are known; in a chart of some length, where they have, they are open. */
static void tap_exactly(const struct chart *c, double width, uint16_t *work, double *scratch)
{
    double *highest = (double *)block(c->n, sizeof *highest);
    uint8_t *pair = (uint8_t *)block(c->n, sizeof *pair);
    uint16_t *group = (uint16_t *)block(c->n, sizeof *group);
    for (size_t i = 0; i < c->n; i++) {
        highest[i] = c->delta[i] + width;
    }
    dresserduck_tapped got = dresserduck_taps(c->kind, c->n, c->start, c->n, c->delta, c->n, highest, c->n, c->ratio,
        c->n, c->settings, pair, c->n, group, c->n, work, 8 * c->n, scratch, c->n);
    CHECK(got.refusal == DRESSERDUCK_ACCEPTED);
    CHECK(width > 0.0 ? got.open == 1 || c->n < 31 : got.open == 0);
    free(highest);
    free(pair);
    free(group);
}

/* The eight calls on a chart, under its settings. */
static void ask_exactly(const struct chart *c)
{
    uint16_t *work = (uint16_t *)block(8 * c->n, sizeof *work);
    double *scratch = (double *)block(c->n, sizeof *scratch);
    encode_exactly(c, work, scratch);
    turn_exactly(c, work, scratch);
    score_exactly(c, work, scratch);
    teach_exactly(c, work, scratch);
    group_exactly(c, work, scratch);
    tap_exactly(c, 0.0, work, scratch);
    tap_exactly(c, c->settings.margin + 10.0, work, scratch);
    free(work);
    free(scratch);
}

static void ask_under_each(struct chart *c)
{
    for (size_t i = 0; i < SETS; i++) {
        c->settings = sets[i];
        ask_exactly(c);
    }
}

int main(void)
{
    static const size_t sizes[] = {0, 1, 2, 3, 6, 7, 8, 31, 200};
    for (size_t i = 0; i < sizeof sizes / sizeof sizes[0]; i++) {
        struct chart c = chart_of(sizes[i]);
        ask_under_each(&c);
        /* up to two raw objects build a chart of none */
        for (size_t m = c.n == 0 ? 0 : c.n + 2; m <= c.n + 2; m++) {
            build_exactly(&c, m);
        }
        ask_under_each(&c);
        free(c.kind);
        free(c.start);
        free(c.delta);
        free(c.ratio);
    }
    return finish();
}
