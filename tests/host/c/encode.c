/* encode from C and from C++: the scope's d kk dd k, a chart that gives no two lists the same, and a refusal.
 * Prints `ok`, or each line that fails. */
#include "dresserduck.h"

#define N 16
#include "lent.h"

static dresserduck_encoded encode(const uint8_t *kind, size_t n)
{
    static const double ones[N] = {1.0, 1.0, 1.0, 1.0, 1.0, 1.0, 1.0, 1.0, 1.0, 1.0, 1.0, 1.0, 1.0, 1.0, 1.0, 1.0};
    lend();
    return dresserduck_encode(kind, n, ones, n, ones, n, ones, n, default_settings, lent.numbers[0], PLACES, lent.numbers[1], PLACES,
        lent.numbers[2], PLACES, lent.numbers[3], PLACES, lent.numbers[4], PLACES, lent.interval, PLACES, lent.work, WORK_PLACES,
        lent.scratch, PLACES);
}

/* d | kk,dd | k */
static void the_scopes_example(void)
{
    static const uint8_t kind[6] = {0, 1, 1, 0, 0, 1};
    static const uint16_t hit[6] = {0, 1, 1, 1, 1, 2};
    static const uint8_t interval[6] = {17, 17, 17, 17, 17, 2};
    dresserduck_encoded got = encode(kind, 6);
    CHECK(got.refusal == DRESSERDUCK_ACCEPTED && got.place == 0 && got.hit_patterns == 3);
    CHECK(memcmp(lent.numbers[4], hit, sizeof hit) == 0 && memcmp(lent.interval, interval, sizeof interval) == 0);
    CHECK(all_sentinels(&lent.numbers[4][6], sizeof lent.numbers[4] - sizeof hit));
}

/* d kk d kk, then dkd kk dkd kk: no two of the six lists are the same */
static void each_list_in_its_slice(void)
{
    static const uint8_t kind[N] = {0, 1, 1, 0, 1, 1, 0, 1, 0, 1, 1, 0, 1, 0, 1, 1};
    static const uint16_t want[5][N] = {
        {0, 1, 1, 2, 3, 3, 4, 5, 6, 7, 7, 8, 9, 10, 11, 11},
        {0, 0, 0, 0, 0, 0, 0, 1, 2, 0, 0, 0, 1, 2, 0, 0},
        {0, 1, 1, 2, 3, 3, 4, 4, 4, 5, 5, 6, 6, 6, 7, 7},
        {0, 1, 1, 2, 3, 3, 0, 0, 0, 1, 1, 2, 2, 2, 3, 3},
        {0, 0, 0, 0, 0, 0, 1, 1, 1, 1, 1, 1, 1, 1, 1, 1}};
    static const uint8_t interval[N] = {17, 17, 17, 17, 17, 17, 1, 1, 1, 1, 1, 1, 1, 1, 1, 1};
    dresserduck_encoded got = encode(kind, N);
    CHECK(got.refusal == DRESSERDUCK_ACCEPTED && got.place == 0 && got.hit_patterns == 2);
    for (size_t list = 0; list < 5; list++) {
        CHECK(FILLED(lent.numbers[list], want[list]));
    }
    CHECK(FILLED(lent.interval, interval));
    CHECK(cleared());
    CHECK(DRESSERDUCK_WORK_PLACES(N + 1) == 8 * (N + 1) && DRESSERDUCK_SCRATCH_PLACES(N + 1) == N + 1);
}

static void refused(void)
{
    static const uint8_t kind[6] = {0, 1, 1, 0, 3, 1};
    dresserduck_encoded got = encode(kind, 6);
    CHECK(got.refusal == DRESSERDUCK_BAD_KIND && got.place == 4 && got.hit_patterns == 0);
    CHECK(untouched());
}

int main(void)
{
    the_scopes_example();
    each_list_in_its_slice();
    refused();
    return finish();
}
