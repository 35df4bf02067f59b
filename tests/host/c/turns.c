/* turns from C and from C++: charts whose answers are found by hand, the largest one, and a place too few in each slice.
 * Prints `ok`, or each line that fails. */
#include "dresserduck.h"

#define N DRESSERDUCK_LARGEST_CHART
#include "asked.h"

/* The slice has what the text says, a sign an object: a note's number, or - for none. Past that nothing is written. */
static int says(const uint16_t *slice, const char *text)
{
    static uint16_t want[PLACES];
    memset(want, SENTINEL, sizeof want);
    for (size_t i = 0; text[i] != '\0'; i++) {
        want[i] = text[i] == '-' ? (uint16_t)DRESSERDUCK_NO_TURN : (uint16_t)(text[i] - '0');
    }
    return memcmp(slice, want, sizeof want) == 0;
}

static int accepted(dresserduck_turned got)
{
    return got.refusal == DRESSERDUCK_ACCEPTED && got.place == 0 && cleared_for(n);
}

/* The letters' previous notes, and their next ones. */
static int turned(const char *letters, const char *previous, const char *next)
{
    ask_about(letters);
    return accepted(turns()) && says(lent.numbers[0], previous) && says(lent.numbers[1], next);
}

/* The notes are numbered as they stand, so that the streaks of dd kk d are notes 0 to 1, 2 to 3 and 4. */
static void of_notes(void)
{
    CHECK(turned("", "", "") && untouched());
    CHECK(turned("d", "-", "-"));
    CHECK(turned("kkk", "---", "---"));
    CHECK(turned("dk", "-0", "1-"));
    CHECK(turned("ddkkd", "--113", "2244-"));
}

/* A NonHit has no number of its own, and 0 is read in its place: nothing comes before a streak that it begins, and note 1, if there is
 * one, comes after a streak that it ends. */
static void of_non_hits(void)
{
    CHECK(turned("n", "-", "-"));
    CHECK(turned("nn", "--", "--"));
    CHECK(turned("nd", "--", "--"));
    CHECK(turned("dn", "--", "--"));
    /* not note 0, which is the next to be heard */
    CHECK(turned("ndk", "--0", "11-"));
    /* note 1 has gone by: d0 k1 d2 */
    CHECK(turned("dkdn", "-01-", "12-1"));
    CHECK(turned("ddkkdn", "--113-", "2244-1"));
}

/* Behind a NonHit a note is compared with the note before that. If they are alike, the NonHit begins its streak: d, nd. So the note after
 * a streak may have the streak's colour. */
static void of_streaks_that_a_non_hit_begins(void)
{
    CHECK(turned("dnd", "---", "1--"));
    CHECK(turned("dnk", "--0", "11-"));
    CHECK(turned("dnnd", "----", "11--"));
    CHECK(turned("dnddk", "----2", "1333-"));
    /* dd kk d n nd kk n, the notes 01 23 4 - 5 67 - */
    CHECK(turned("ddkkdnndkkn", "--113---55-", "22445166--1"));
}

/* Each note of it is a streak, and has its neighbours' numbers. */
static void of_the_largest_chart(void)
{
    static char letters[N + 1];
    static uint16_t previous[N], next[N];
    for (size_t i = 0; i < N; i++) {
        letters[i] = i % 2 ? 'k' : 'd';
        previous[i] = (uint16_t)(i - 1);
        next[i] = (uint16_t)(i + 1);
    }
    previous[0] = next[N - 1] = DRESSERDUCK_NO_TURN;
    ask_about(letters);
    CHECK(accepted(turns()) && FILLED(lent.numbers[0], previous) && FILLED(lent.numbers[1], next));
}

/* With this many places in the slices. */
static dresserduck_turned turns_in(size_t previous, size_t next, size_t work, size_t scratch)
{
    lend();
    return dresserduck_turns(CHART, lent.numbers[0], previous, lent.numbers[1], next, lent.work, work, lent.scratch, scratch);
}

static int too_short(dresserduck_turned got)
{
    return got.refusal == DRESSERDUCK_SLICE_TOO_SHORT && got.place == 0 && untouched();
}

static void in_just_enough_places(void)
{
    ask_about("dkdn");
    CHECK(accepted(turns_in(4, 4, 32, 4)) && says(lent.numbers[0], "-01-") && says(lent.numbers[1], "12-1"));
    CHECK(too_short(turns_in(3, 4, 32, 4)));
    CHECK(too_short(turns_in(4, 3, 32, 4)));
    CHECK(too_short(turns_in(4, 4, 31, 4)));
    CHECK(too_short(turns_in(4, 4, 32, 3)));
}

int main(void)
{
    CHECK(DRESSERDUCK_NO_TURN == 65535);
    of_notes();
    of_non_hits();
    of_streaks_that_a_non_hit_begins();
    of_the_largest_chart();
    in_just_enough_places();
    return finish();
}
