/* The settings from C and from C++, in the program's own struct and by each of the eight calls on a chart: what is answered under the
 * default ones, and what each number changes. Prints `ok`, or each line that fails. */
#include "dresserduck.h"

/* as many objects as the largest chart here has */
#define N 134
#include "asked.h"

#include <math.h>

static void the_default(void)
{
    ask_about("d");
    CHECK(settings.margin == 5.0 && settings.search_limit == 16 && settings.threshold == 0.1 && settings.tolerance == 0.01);
}

/* d | kk,dd | k, whose last is two back, or is like none. */
static void check_limit(uint64_t limit, uint8_t none, uint8_t last)
{
    static const uint16_t hit[6] = {0, 1, 1, 1, 1, 2};
    const uint8_t interval[6] = {none, none, none, none, none, last};
    settings.search_limit = limit;
    dresserduck_encoded got = encode();
    CHECK(got.refusal == DRESSERDUCK_ACCEPTED && got.place == 0 && got.hit_patterns == 3);
    CHECK(FILLED(lent.numbers[4], hit) && FILLED(lent.interval, interval));
    CHECK(cleared_for(n));
}

/* Hit patterns of one streak each: four notes, then shorter ones, then four, so many further on. */
static void ask_about_far(size_t distance)
{
    char letters[N + 1];
    size_t length = 0;
    for (size_t pattern = 0; pattern <= distance; pattern++) {
        size_t notes = pattern == 0 || pattern == distance ? 4 : (pattern - 1) % 3 + 1;
        while (notes-- > 0) {
            letters[length++] = pattern % 2 ? 'k' : 'd';
        }
    }
    letters[length] = '\0';
    ask_about(letters);
}

/* How far back the last hit pattern is found. */
static void check_far(uint64_t limit, size_t distance, uint8_t last)
{
    ask_about_far(distance);
    settings.search_limit = limit;
    dresserduck_encoded got = encode();
    CHECK(got.refusal == DRESSERDUCK_ACCEPTED && got.hit_patterns == distance + 1);
    CHECK(lent.interval[0] == limit + 1 && lent.interval[n - 1] == last);
}

static void search_limit_in_encode(void)
{
    static const uint8_t one_back[16] = {3, 3, 3, 3, 3, 3, 1, 1, 1, 1, 1, 1, 1, 1, 1, 1};
    ask_about("dkkddk");
    check_limit(16, 17, 2);
    check_limit(2, 3, 3);
    check_limit(3, 4, 2);
    check_limit(64, 65, 2);
    check_far(4, 3, 3);
    check_far(4, 4, 5);
    check_far(16, 15, 15);
    check_far(16, 16, 17);
    check_far(64, 63, 63);
    check_far(64, 64, 65);
    ask_about("dkkdkkdkdkkdkdkk");
    settings.search_limit = 2;
    CHECK(encode().hit_patterns == 2 && FILLED(lent.interval, one_back));
}

/* The answers are the same under each set, though by its limit those of encode are others. */
static void nothing_in_turns(void)
{
    static const uint16_t previous[6] = {DRESSERDUCK_NO_TURN, 0, 0, 2, 2, 4}, next[6] = {1, 3, 3, 5, 5, DRESSERDUCK_NO_TURN};
    ask_about("dkkddk");
    for (size_t i = 0; i < SETS; i++) {
        settings = sets[i];
        dresserduck_turned got = turns();
        CHECK(got.refusal == DRESSERDUCK_ACCEPTED && got.place == 0 && cleared_for(n));
        CHECK(FILLED(lent.numbers[0], previous) && FILLED(lent.numbers[1], next));
    }
}

/* The last object has this value, behind which nothing is written. */
static int is_last(double value)
{
    return lent.value[n - 1] == value && all_sentinels(&lent.value[n], sizeof lent.value - n * sizeof value) && cleared_for(n);
}

/* colour has this value for the last object, and so do stretch and the lesson's second pair for it alone. */
static void check_last(double value)
{
    const int64_t tenths = (int64_t)(10.0 * value + (value < 0.0 ? -0.5 : 0.5));
    dresserduck_coloured coloured = colour();
    CHECK(coloured.refusal == DRESSERDUCK_ACCEPTED && coloured.place == 0 && is_last(value));
    from = n - 1;
    dresserduck_stretched stretched = stretch();
    CHECK(stretched.refusal == DRESSERDUCK_ACCEPTED && stretched.place == 0 && is_last(value));
    CHECK(stretched.mean == value && stretched.tenths == tenths);
    dresserduck_lessoned lessoned = lesson();
    CHECK(lessoned.refusal == DRESSERDUCK_ACCEPTED && lessoned.place == 0 && is_last(value));
    CHECK(pairs == 2 && lent.mean[1] == value && lent.tenths[1] == tenths);
}

/* By T(2), and by T(3) where the limit is 2. */
static void search_limit_in_values(void)
{
    const double penalty = 1.0 - 1.0 / 2.0 * 0.8;
    ask_about("dkkddk");
    check_last(opening_value(0.5) * penalty);
    settings.margin = 2.0;
    settings.threshold = settings.tolerance = 0.5;
    check_last(opening_value(0.5) * penalty);
    settings = default_settings;
    settings.search_limit = 3;
    check_last(opening_value(0.5) * penalty);
    settings.search_limit = 2;
    check_last(opening_value(dresserduck_double(0x3FAFB1C59F21E64Eu)) * penalty);
}

/* The last ratio is 1.1 times that of two objects before. */
static void tolerance_in_values(void)
{
    const double value = new_value();
    ask_about("ddk");
    ratio[0] = 4.0;
    ratio[2] = 4.4;
    check_last(value);
    settings.margin = 50.0;
    settings.search_limit = 64;
    settings.threshold = 1.0;
    check_last(value);
    settings = default_settings;
    settings.tolerance = 0.2;
    check_last(value * (1.0 - 4.4 / 2.0 * 0.8));
}

/* Four notes, of which the last opens a group of its own and a pattern group of its own, or not. */
static void check_rhythm(uint16_t last_group, uint16_t last_pattern)
{
    const uint16_t groups[4] = {0, 0, 0, last_group}, patterns[4] = {0, 0, 0, last_pattern};
    dresserduck_grouped got = rhythm();
    CHECK(got.refusal == DRESSERDUCK_ACCEPTED && got.place == 0);
    CHECK(got.groups == last_group + 1u && got.pattern_groups == last_pattern + 1u);
    CHECK(FILLED(lent.numbers[0], groups) && FILLED(lent.numbers[1], patterns));
    CHECK(cleared_for(n));
}

/* The last two deltas are 8 apart. */
static void margin_in_groups(void)
{
    ask_about("dddd");
    start[3] = 308.0;
    delta[3] = 108.0;
    check_rhythm(1, 1);
    settings.search_limit = 64;
    settings.threshold = settings.tolerance = 1.0;
    check_rhythm(1, 1);
    settings = default_settings;
    settings.margin = 10.0;
    check_rhythm(0, 0);
}

/* By falling deltas each note is a group; the last two start 8 further apart than the others. */
static void margin_in_pattern_groups(void)
{
    static const double margins[2] = {5.0, 10.0};
    static const uint16_t groups[4] = {0, 1, 2, 3}, patterns[2][4] = {{0, 0, 0, 1}, {0, 0, 0, 0}};
    ask_about("dddd");
    for (size_t i = 0; i < 4; i++) {
        start[i] = 300.0 * (double)i + (i == 3 ? 8.0 : 0.0);
        delta[i] = 400.0 - 100.0 * (double)i;
    }
    for (size_t i = 0; i < 2; i++) {
        settings.margin = margins[i];
        dresserduck_grouped got = rhythm();
        CHECK(got.refusal == DRESSERDUCK_ACCEPTED && got.groups == 4 && got.pattern_groups == 2 - i);
        CHECK(FILLED(lent.numbers[0], groups) && FILLED(lent.numbers[1], patterns[i]));
    }
}

/* One of two groups of three notes, by its first note; it has these own interval, quotient and distance. */
static void check_record(size_t number, double own, double quotient, double interval)
{
    group = number;
    dresserduck_recorded got = record();
    CHECK(got.refusal == DRESSERDUCK_ACCEPTED && got.place == 0 && cleared_for(n));
    CHECK(got.first_note == 3 * number && got.note_count == 3 && got.has_own == 1);
    CHECK(dresserduck_double(got.own_bits) == own && dresserduck_double(got.ratio_bits) == quotient);
    CHECK(dresserduck_double(got.interval_bits) == interval);
}

/* A wider margin puts 108 and 100 into one set, which counts as 104, snaps the next group's own 108 to that, and makes the 8 from its
 * start to that of the group before 0. */
static void margin_in_record(void)
{
    static const double starts[6] = {0.0, 2.0, 4.0, 8.0, 10.0, 12.0}, deltas[6] = {108.0, 100.0, 100.0, 400.0, 108.0, 108.0};
    ask_about("dddddd");
    memcpy(start, starts, sizeof starts);
    memcpy(delta, deltas, sizeof deltas);
    check_record(0, 100.0, 1.0, INFINITY);
    check_record(1, 108.0, 108.0 / 100.0, 8.0);
    settings.margin = 10.0;
    check_record(0, 104.0, 1.0, INFINITY);
    check_record(1, 104.0, 1.0, 0.0);
}

static void check_penalty(double penalty)
{
    dresserduck_recorded got = record();
    CHECK(got.refusal == DRESSERDUCK_ACCEPTED && got.first_note == 5 && got.note_count == 4 && dresserduck_double(got.own_bits) == 110.0);
    CHECK(dresserduck_double(got.penalty_bits) == penalty);
}

/* Own intervals of 100, 150 and 110, of which the first and the last are a tenth and a bit apart; half for the length. */
static void threshold_in_record(void)
{
    static const double deltas[9] = {100.0, 100.0, 100.0, 150.0, 150.0, 150.0, 110.0, 110.0, 110.0};
    ask_about("ddddddddd");
    memcpy(delta, deltas, sizeof deltas);
    group = 2;
    window = 1.0;
    check_penalty(0.5);
    settings.margin = 2.0;
    settings.search_limit = 64;
    settings.tolerance = 0.2;
    check_penalty(0.5);
    settings = default_settings;
    settings.threshold = 0.2;
    check_penalty(0.8 * 0.5);
}

/* Of four notes, of which the first two are in one group and the others in these, unless that is open. */
static void check_taps(double margin, uint8_t last_pair, uint16_t third, uint16_t last)
{
    const uint8_t pairs[4] = {DRESSERDUCK_NEAR, DRESSERDUCK_NEAR, last_pair, DRESSERDUCK_NO_PAIR};
    const uint16_t groups[4] = {0, 0, third, last};
    settings.margin = margin;
    dresserduck_tapped got = taps();
    CHECK(got.refusal == DRESSERDUCK_ACCEPTED && got.place == 0 && cleared_for(n) && FILLED(lent.pair, pairs));
    if (last_pair == DRESSERDUCK_OPEN) {
        CHECK(got.open == 1 && got.groups == 0 && all_sentinels(lent.numbers[0], sizeof lent.numbers[0]));
    } else {
        CHECK(got.open == 0 && got.groups == last + 1u && FILLED(lent.numbers[0], groups));
    }
}

/* The last two deltas are 7 to 9 apart, up or down. */
static void margin_in_taps(void)
{
    ask_about("dddd");
    for (size_t i = 0; i < 4; i++) {
        delta[i] = i < 3 ? 100.0 : 108.0;
        highest[i] = delta[i] + 1.0;
    }
    check_taps(5.0, DRESSERDUCK_RISE, 0, 1);
    settings.search_limit = 64;
    settings.threshold = settings.tolerance = 1.0;
    check_taps(5.0, DRESSERDUCK_RISE, 0, 1);
    settings = default_settings;
    check_taps(8.0, DRESSERDUCK_OPEN, 0, 0);
    check_taps(10.0, DRESSERDUCK_NEAR, 0, 0);
    delta[3] = 92.0;
    highest[3] = 93.0;
    check_taps(5.0, DRESSERDUCK_NEITHER, 1, 2);
    check_taps(8.0, DRESSERDUCK_OPEN, 0, 0);
    check_taps(10.0, DRESSERDUCK_NEAR, 0, 0);
}

int main(void)
{
    the_default();
    search_limit_in_encode();
    nothing_in_turns();
    search_limit_in_values();
    tolerance_in_values();
    margin_in_groups();
    margin_in_pattern_groups();
    margin_in_record();
    threshold_in_record();
    margin_in_taps();
    return finish();
}
