/* What the programs about the settings, turns and lesson share: the eight calls on a chart, each of which is asked about what stands in
 * the variables here. N, the most objects of a chart, is defined before this is included. */
#include "lent.h"

/* A chart of n objects, whose deltas are the lowest for taps, with its settings; stretch's ends; lesson's pairs, with room for one more
 * than it may have; record's group and window; and how many places the slices of n answers and the larger work slice have. */
static size_t n;
static uint8_t kind[N];
static double start[N], delta[N], highest[N], ratio[N];
static dresserduck_settings settings;
static size_t from, to, pairs, group;
static uint64_t offsets[DRESSERDUCK_MOST_PAIRS + 1], lengths[DRESSERDUCK_MOST_PAIRS + 1];
static double window;
static size_t places, work_places;

static inline uint8_t kind_of(char letter)
{
    return letter == 'k' ? DRESSERDUCK_RIM : letter == 'n' ? DRESSERDUCK_NON_HIT : DRESSERDUCK_CENTER;
}

/* One more pair of the lesson. */
static inline void mark(uint64_t offset, uint64_t length)
{
    offsets[pairs] = offset;
    lengths[pairs] = length;
    pairs += 1;
}

/* These kinds, d, k or n, in an even rhythm of known deltas, under the default settings; the lesson marks all of them and the last. */
static inline void ask_about(const char *letters)
{
    n = strlen(letters);
    for (size_t i = 0; i < n; i++) {
        kind[i] = kind_of(letters[i]);
        start[i] = 100.0 * (double)i;
        delta[i] = highest[i] = 100.0;
        ratio[i] = 1.0;
    }
    settings = default_settings;
    from = pairs = group = 0;
    to = n;
    mark(0, n);
    mark((uint64_t)n - 1, 1);
    window = 1000.0;
    places = PLACES;
    work_places = WORK_PLACES;
}

#define CHART kind, n, start, n, delta, n, ratio, n, settings
#define TAP_CHART kind, n, start, n, delta, n, highest, n, ratio, n, settings
#define PAIRS offsets, pairs, lengths, pairs
#define WORK lent.work, work_places, lent.scratch, PLACES

static inline dresserduck_encoded encode(void)
{
    lend();
    return dresserduck_encode(CHART, lent.numbers[0], places, lent.numbers[1], places, lent.numbers[2], places, lent.numbers[3], places,
        lent.numbers[4], places, lent.interval, places, WORK);
}

static inline dresserduck_turned turns(void)
{
    lend();
    return dresserduck_turns(CHART, lent.numbers[0], places, lent.numbers[1], places, WORK);
}

static inline dresserduck_coloured colour(void)
{
    lend();
    return dresserduck_colour(CHART, lent.value, places, WORK);
}

static inline dresserduck_stretched stretch(void)
{
    lend();
    return dresserduck_stretch(CHART, from, to, lent.value, places, WORK);
}

static inline dresserduck_lessoned lesson(void)
{
    lend();
    return dresserduck_lesson(CHART, PAIRS, lent.value, places, lent.mean, PAIR_PLACES, lent.tenths, PAIR_PLACES, WORK);
}

static inline dresserduck_grouped rhythm(void)
{
    lend();
    return dresserduck_rhythm(CHART, lent.numbers[0], places, lent.numbers[1], places, WORK);
}

static inline dresserduck_recorded record(void)
{
    lend();
    return dresserduck_record(CHART, group, window, WORK);
}

static inline dresserduck_tapped taps(void)
{
    lend();
    return dresserduck_taps(TAP_CHART, lent.pair, places, lent.numbers[0], places, WORK);
}
