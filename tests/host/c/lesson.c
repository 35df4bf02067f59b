/* lesson from C and from C++: the means of several stretches at once, worked out by hand, beside the values that the call fills and what
 * stretch answers of each alone; and which lessons are refused, and at which pair. Prints `ok`, or each line that fails. */
#include "dresserduck.h"

#define N 40
#include "asked.h"

/* What the last lesson filled. */
static struct {
    double value[PLACES];
    double mean[PAIR_PLACES];
    int64_t tenths[PAIR_PLACES];
} told;

/* A chart of these kinds, of which nothing is marked yet. */
static void begin(const char *letters)
{
    ask_about(letters);
    pairs = 0;
}

/* A chart of N objects, all kinds among them. */
#define LETTERS "ddkkdnkdkkkdndkddkdkddknnkdkkddkdkdkkkdk"

/* Nothing is written past so many places of a slice, whose elements have eight bytes. */
static int as_it_was_past(size_t count, const void *slice, size_t bytes)
{
    return all_sentinels((const char *)slice + 8 * count, bytes - 8 * count);
}

/* Of all lent places those alone are written that must be; `told` keeps what was filled. */
static int accepted(dresserduck_lessoned got)
{
    memcpy(told.value, lent.value, sizeof told.value);
    memcpy(told.mean, lent.mean, sizeof told.mean);
    memcpy(told.tenths, lent.tenths, sizeof told.tenths);
    return got.refusal == DRESSERDUCK_ACCEPTED && got.place == 0 && cleared_for(n) && as_it_was_past(n, lent.value, sizeof lent.value)
        && as_it_was_past(pairs, lent.mean, sizeof lent.mean) && as_it_was_past(pairs, lent.tenths, sizeof lent.tenths);
}

/* The mean over the notes from a to b, by the values that were filled. */
static double mean_of(size_t a, size_t b)
{
    double sum = 0.0;
    size_t notes = 0;
    for (size_t i = a; i < b; i++) {
        if (kind[i] != DRESSERDUCK_NON_HIT) {
            sum += told.value[i];
            notes += 1;
        }
    }
    return sum / (double)notes;
}

static int same(double x, double y)
{
    return memcmp(&x, &y, sizeof x) == 0;
}

/* The pair was told the mean over its notes, and in all bits what stretch answers of it alone. */
static void check_pair(size_t pair)
{
    from = (size_t)offsets[pair];
    to = from + (size_t)lengths[pair];
    dresserduck_stretched alone = stretch();
    CHECK(alone.refusal == DRESSERDUCK_ACCEPTED && memcmp(told.value, lent.value, sizeof told.value) == 0);
    CHECK(same(told.mean[pair], mean_of(from, to)));
    CHECK(same(told.mean[pair], alone.mean) && told.tenths[pair] == alone.tenths);
}

static void check_lesson(void)
{
    CHECK(accepted(lesson()));
    for (size_t pair = 0; pair < pairs; pair++) {
        check_pair(pair);
    }
}

/* Values of two objects alone: that of the first, and that of the last with its penalty, which is below zero. */
static void by_hand(void)
{
    const double first = new_value(), last = first * (1.0 - 4.0 / 2.0 * 0.8);
    begin("ddk");
    ratio[0] = ratio[2] = 4.0;
    mark(0, 2);
    mark(1, 2);
    mark(2, 1);
    check_lesson();
    CHECK(told.value[0] == first && told.value[1] == 0.0 && told.value[2] == last);
    CHECK(told.mean[0] == first / 2.0 && told.mean[1] == last / 2.0 && told.mean[2] == last);
    CHECK(told.tenths[0] == 25 && told.tenths[1] == -15 && told.tenths[2] == -30);
}

/* A NonHit's value counts for nothing, nor does the NonHit: the three stretches that have it are of 2, 1 and 1 notes. */
static void by_hand_with_a_non_hit(void)
{
    const double first = new_value();
    begin("ddnd");
    mark(0, 3);
    mark(1, 2);
    mark(2, 2);
    check_lesson();
    CHECK(told.value[0] == first && told.value[1] == 0.0 && told.value[2] != 0.0 && told.value[3] == 0.0);
    CHECK(told.mean[0] == first / 2.0 && told.mean[1] == 0.0 && told.mean[2] == 0.0);
    CHECK(told.tenths[0] == 25 && told.tenths[1] == 0 && told.tenths[2] == 0);
}

/* They overlap, lie inside each other, end together, follow at once, and leave objects out; the first ends where the chart does. */
static void of_all_sorts(void)
{
    begin(LETTERS);
    ratio[7] = ratio[9] = ratio[21] = 2.0;
    mark(0, N);
    mark(1, 9);
    mark(4, 3);
    mark(6, 4);
    mark(10, 4);
    mark(14, 1);
    mark(22, 4);
    mark(N - 1, 1);
    for (size_t i = 0; i < SETS; i++) {
        settings = sets[i];
        check_lesson();
    }
}

/* Nothing but the values, as colour fills them. */
static void of_no_pairs(void)
{
    begin(LETTERS);
    CHECK(accepted(lesson()));
    colour();
    CHECK(memcmp(told.value, lent.value, sizeof told.value) == 0);
    begin("");
    CHECK(accepted(lesson()) && untouched());
}

static int refused(dresserduck_lessoned got, uint64_t refusal, uint64_t place)
{
    return got.refusal == refusal && got.place == place && untouched();
}

static void mark_so_many(size_t count)
{
    begin(LETTERS);
    for (size_t pair = 0; pair < count; pair++) {
        mark(pair, N - pair);
    }
}

static void of_the_most_pairs(void)
{
    CHECK(DRESSERDUCK_MOST_PAIRS == 32);
    mark_so_many(32);
    check_lesson();
    mark_so_many(33);
    CHECK(refused(lesson(), DRESSERDUCK_BAD_LESSON, 0));
}

/* Two offsets of a lesson of so many are not in order; the place is 0 wherever they stand. */
static void out_of_order(size_t count, size_t pair, uint64_t offset)
{
    mark_so_many(count);
    offsets[pair] = offset;
    CHECK(refused(lesson(), DRESSERDUCK_BAD_LESSON, 0));
}

static void of_offsets_that_do_not_rise(void)
{
    CHECK(DRESSERDUCK_BAD_LESSON == 17);
    out_of_order(2, 1, 0);
    out_of_order(2, 0, 1);
    out_of_order(2, 0, 2);
    out_of_order(32, 31, 30);
    out_of_order(32, 31, 29);
    out_of_order(32, 16, 0);
    out_of_order(2, 0, UINT64_MAX);
    /* cut to 32 bits it would be below the one behind it */
    out_of_order(2, 0, (uint64_t)1 << 32);
}

/* Offset and length of this pair are refused behind each number of good pairs below its offset, up to two. */
static void expect_bad_stretch(uint64_t offset, uint64_t length)
{
    for (size_t before = 0; before <= 2 && before <= offset; before++) {
        begin(LETTERS);
        for (size_t pair = 0; pair < before; pair++) {
            mark(pair, 3);
        }
        mark(offset, length);
        CHECK(refused(lesson(), DRESSERDUCK_BAD_STRETCH, before));
    }
}

static void of_stretches_outside(void)
{
    expect_bad_stretch(0, 0);
    expect_bad_stretch(0, N + 1);
    expect_bad_stretch(5, 0);
    expect_bad_stretch(5, N - 4);
    expect_bad_stretch(N - 1, 2);
    expect_bad_stretch(N, 0);
    expect_bad_stretch(N, 1);
    expect_bad_stretch(N + 1, 0);
    expect_bad_stretch(N + 1, 1);
    begin("");
    mark(0, 0);
    CHECK(refused(lesson(), DRESSERDUCK_BAD_STRETCH, 0));
    lengths[0] = 1;
    CHECK(refused(lesson(), DRESSERDUCK_BAD_STRETCH, 0));
}

/* Most of these sums would lie inside the chart if they wrapped, at 64, 32 or 16 bits. */
static void of_sums_that_would_wrap(void)
{
    const uint64_t half = (uint64_t)1 << 63;
    expect_bad_stretch(UINT64_MAX, 1);
    expect_bad_stretch(UINT64_MAX, 5);
    expect_bad_stretch(UINT64_MAX, UINT64_MAX);
    expect_bad_stretch(UINT64_MAX - N, 2 * N);
    expect_bad_stretch(1, UINT64_MAX);
    expect_bad_stretch(5, UINT64_MAX - 1);
    expect_bad_stretch(N, UINT64_MAX);
    expect_bad_stretch(0, UINT64_MAX);
    expect_bad_stretch(half, half);
    expect_bad_stretch(half + 3, half + 3);
    expect_bad_stretch(half - 1, half + 8);
    expect_bad_stretch(3, ((uint64_t)1 << 32) + 2);
    expect_bad_stretch(((uint64_t)1 << 32) + 3, 2);
    expect_bad_stretch(3, ((uint64_t)1 << 16) + 2);
    expect_bad_stretch(((uint64_t)1 << 16) + 3, 2);
}

/* An offset is above another though it has the sign's bit and the other hasn't. */
static void of_offsets_about_the_middle(void)
{
    begin(LETTERS);
    mark(0, 1);
    mark(((uint64_t)1 << 63) - 1, 1);
    mark((uint64_t)1 << 63, 1);
    CHECK(refused(lesson(), DRESSERDUCK_BAD_STRETCH, 1));
}

/* Object 1 alone is a NonHit. The first pair that is refused is told, whatever it is refused for. */
static void first_pair_first(void)
{
    begin("dnk");
    mark(1, 1);
    mark(2, 2);
    CHECK(refused(lesson(), DRESSERDUCK_NO_NOTE, 0));
    begin("dnk");
    mark(0, 4);
    mark(1, 1);
    CHECK(refused(lesson(), DRESSERDUCK_BAD_STRETCH, 0));
    begin("dnk");
    mark(0, 3);
    mark(1, 1);
    mark(2, 0);
    CHECK(refused(lesson(), DRESSERDUCK_NO_NOTE, 1));
    /* of one pair the end comes first */
    begin("dn");
    mark(1, 2);
    CHECK(refused(lesson(), DRESSERDUCK_BAD_STRETCH, 0));
}

/* The set is refused before a pair, and an object before the set. */
static void objects_then_set_then_pairs(void)
{
    begin(LETTERS);
    mark(N + 1, UINT64_MAX);
    mark(3, 0);
    CHECK(refused(lesson(), DRESSERDUCK_BAD_LESSON, 0));
    mark_so_many(33);
    lengths[0] = 0;
    CHECK(refused(lesson(), DRESSERDUCK_BAD_LESSON, 0));
    ratio[N - 1] = 0.0;
    CHECK(refused(lesson(), DRESSERDUCK_BAD_RATIO, N - 1));
}

/* With so many lengths, and this many places in the slices. */
static dresserduck_lessoned lesson_in(size_t length_count, size_t value, size_t mean, size_t tenths, size_t work, size_t scratch)
{
    lend();
    return dresserduck_lesson(CHART, offsets, pairs, lengths, length_count, lent.value, value, lent.mean, mean, lent.tenths, tenths,
        lent.work, work, lent.scratch, scratch);
}

static void begin_with_two_pairs(void)
{
    begin("dkdn");
    mark(0, 2);
    mark(1, 3);
}

static void in_just_enough_places(void)
{
    begin_with_two_pairs();
    CHECK(accepted(lesson_in(2, 4, 2, 2, 32, 4)));
    check_pair(0);
    check_pair(1);
    CHECK(refused(lesson_in(2, 3, 2, 2, 32, 4), DRESSERDUCK_SLICE_TOO_SHORT, 0));
    CHECK(refused(lesson_in(2, 4, 1, 2, 32, 4), DRESSERDUCK_SLICE_TOO_SHORT, 0));
    CHECK(refused(lesson_in(2, 4, 2, 1, 32, 4), DRESSERDUCK_SLICE_TOO_SHORT, 0));
    CHECK(refused(lesson_in(2, 4, 2, 2, 31, 4), DRESSERDUCK_SLICE_TOO_SHORT, 0));
    CHECK(refused(lesson_in(2, 4, 2, 2, 32, 3), DRESSERDUCK_SLICE_TOO_SHORT, 0));
    pairs = 0;
    CHECK(accepted(lesson_in(0, 4, 0, 0, 32, 4)));
    /* before the set is looked at */
    mark_so_many(33);
    CHECK(refused(lesson_in(33, N, 32, 33, 8 * N, N), DRESSERDUCK_SLICE_TOO_SHORT, 0));
    CHECK(refused(lesson_in(33, N, 33, 32, 8 * N, N), DRESSERDUCK_SLICE_TOO_SHORT, 0));
}

/* Also where a slice is too short, and where the settings are bad. */
static void of_unequal_numbers(void)
{
    begin_with_two_pairs();
    CHECK(refused(lesson_in(1, 4, 2, 2, 32, 4), DRESSERDUCK_LENGTHS_DIFFER, 0));
    CHECK(refused(lesson_in(3, 4, 3, 3, 32, 4), DRESSERDUCK_LENGTHS_DIFFER, 0));
    CHECK(refused(lesson_in(0, 4, 2, 2, 32, 4), DRESSERDUCK_LENGTHS_DIFFER, 0));
    CHECK(refused(lesson_in(1, 3, 1, 1, 31, 3), DRESSERDUCK_LENGTHS_DIFFER, 0));
    settings.search_limit = 65;
    CHECK(refused(lesson_in(1, 4, 2, 2, 32, 4), DRESSERDUCK_LENGTHS_DIFFER, 0));
    pairs = 0;
    CHECK(refused(lesson_in(1, 4, 1, 1, 32, 4), DRESSERDUCK_LENGTHS_DIFFER, 0));
}

int main(void)
{
    by_hand();
    by_hand_with_a_non_hit();
    of_all_sorts();
    of_no_pairs();
    of_the_most_pairs();
    of_offsets_that_do_not_rise();
    of_stretches_outside();
    of_sums_that_would_wrap();
    of_offsets_about_the_middle();
    first_pair_first();
    objects_then_set_then_pairs();
    in_just_enough_places();
    of_unequal_numbers();
    return finish();
}
