/* rhythm and record from C and from C++, on a chart that gives no two fields the same. Prints `ok`, or each line that fails. */
#include "dresserduck.h"

#define N 11
#include "lent.h"

/* groups of deltas 100, 150 with a NonHit before them, 200, and one note of 400 */
static const uint8_t kind[N] = {0, 0, 0, 2, 1, 1, 1, 0, 0, 0, 1};
static const double start[N] = {0.0, 100.0, 200.0, 250.0, 350.0, 500.0, 650.0, 850.0, 1050.0, 1250.0, 1650.0};
static const double delta[N] = {100.0, 100.0, 100.0, 50.0, 150.0, 150.0, 150.0, 200.0, 200.0, 200.0, 400.0};
static const double ratio[N] = {1.0, 1.0, 1.0, 1.0, 1.0, 1.0, 1.0, 1.0, 1.0, 1.0, 1.0};

static void grouped(void)
{
    static const uint16_t group[N] = {0, 0, 0, DRESSERDUCK_NO_GROUP, 1, 1, 1, 2, 2, 2, 3};
    static const uint16_t pattern[N] = {0, 0, 0, DRESSERDUCK_NO_GROUP, 0, 0, 0, 1, 1, 1, 2};
    lend();
    dresserduck_grouped got = dresserduck_rhythm(kind, N, start, N, delta, N, ratio, N, default_settings, lent.numbers[0], PLACES,
        lent.numbers[1], PLACES, lent.work, WORK_PLACES, lent.scratch, PLACES);
    CHECK(got.refusal == DRESSERDUCK_ACCEPTED && got.place == 0 && got.groups == 4 && got.pattern_groups == 3);
    CHECK(FILLED(lent.numbers[0], group) && FILLED(lent.numbers[1], pattern));
    CHECK(cleared());
}

static dresserduck_recorded record(size_t group, double window)
{
    lend();
    return dresserduck_record(
        kind, N, start, N, delta, N, ratio, N, default_settings, group, window, lent.work, WORK_PLACES, lent.scratch, PLACES);
}

static void recorded(void)
{
    dresserduck_recorded got = record(2, 1000.0);
    CHECK(got.refusal == DRESSERDUCK_ACCEPTED && got.place == 0 && cleared());
    CHECK(got.first_note == 7 && got.note_count == 3);
    CHECK(got.has_own == 1 && dresserduck_double(got.own_bits) == 200.0);
    CHECK(dresserduck_double(got.ratio_bits) == 200.0 / 150.0 && dresserduck_double(got.interval_bits) == 500.0);
    CHECK(dresserduck_double(got.penalty_bits) == 0.5);
    CHECK(got.pattern_group == 1 && dresserduck_double(got.pattern_ratio_bits) == 500.0 / 350.0);
}

/* The first group follows none; the last has one note, and so no own interval. */
static void recorded_at_the_ends(void)
{
    dresserduck_recorded got = record(0, 1000.0);
    CHECK(got.first_note == 0 && got.note_count == 3 && dresserduck_double(got.own_bits) == 100.0);
    CHECK(got.interval_bits == 0x7FF0000000000000u && dresserduck_double(got.penalty_bits) == 1.0 - 200.0 * 2.0 / 1000.0);
    got = record(3, 1000.0);
    CHECK(got.first_note == 10 && got.note_count == 1 && got.has_own == 0 && got.own_bits == 0);
    CHECK(dresserduck_double(got.ratio_bits) == 1.0 && dresserduck_double(got.interval_bits) == 800.0);
    CHECK(got.pattern_group == 2 && dresserduck_double(got.pattern_ratio_bits) == 800.0 / 500.0);
}

static void check_refused(dresserduck_recorded got, uint64_t refusal)
{
    dresserduck_recorded want;
    memset(&want, 0, sizeof want);
    want.refusal = refusal;
    CHECK(memcmp(&got, &want, sizeof want) == 0);
    CHECK(untouched());
}

int main(void)
{
    grouped();
    recorded();
    recorded_at_the_ends();
    check_refused(record(0, 0.5), DRESSERDUCK_BAD_WINDOW);
    check_refused(record(4, 1.0), DRESSERDUCK_BAD_GROUP);
    return finish();
}
