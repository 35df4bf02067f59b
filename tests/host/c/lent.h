/* The memory that a program lends for the N objects that it defines before it includes this, and for a pair more than a lesson may have:
 * in each slice one place more than needed, and in every byte a sentinel. */
#include "check.h"

#define SENTINEL 0xA5
#define PLACES (N + 1)
#define WORK_PLACES (8 * N + 1)
#define PAIR_PLACES (DRESSERDUCK_MOST_PAIRS + 2)

static struct {
    uint16_t numbers[5][PLACES]; /* encode's, in the order of the call; turns and rhythm fill the first two, taps the first */
    uint8_t interval[PLACES];
    uint8_t pair[PLACES];
    uint8_t built_kind[PLACES];
    double built[3][PLACES]; /* starts, deltas and ratios */
    double value[PLACES];
    double mean[PAIR_PLACES];
    int64_t tenths[PAIR_PLACES];
    uint16_t work[WORK_PLACES];
    double scratch[PLACES];
} lent;

static inline void lend(void)
{
    memset(&lent, SENTINEL, sizeof lent);
}

static inline int all_sentinels(const void *memory, size_t bytes)
{
    const unsigned char *at = (const unsigned char *)memory;
    size_t i;
    for (i = 0; i < bytes && at[i] == SENTINEL; i++) {}
    return i == bytes;
}

/* Nothing was written. */
static inline int untouched(void)
{
    return all_sentinels(&lent, sizeof lent);
}

/* The slice has these answers, and what it had past them. */
#define FILLED(slice, want) \
    (memcmp(slice, want, sizeof(want)) == 0 && all_sentinels((const char *)(slice) + sizeof(want), sizeof(slice) - sizeof(want)))

/* The work slices are 0 as far as n objects need them, and as they were past that. */
static inline int cleared_for(size_t n)
{
    static const uint16_t no_work[8 * N] = {0};
    static const double no_scratch[N] = {0.0};
    const size_t work = 8 * n * sizeof no_work[0], scratch = n * sizeof no_scratch[0];
    return memcmp(lent.work, no_work, work) == 0 && all_sentinels(&lent.work[8 * n], sizeof lent.work - work)
        && memcmp(lent.scratch, no_scratch, scratch) == 0 && all_sentinels(&lent.scratch[n], sizeof lent.scratch - scratch);
}

static inline int cleared(void)
{
    return cleared_for(N);
}
