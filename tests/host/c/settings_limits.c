/* Refusal 16 from C and from C++, by each of the eight calls on a chart: which numbers it is for and which not, -0.0, and its place in the
 * order of the refusals. Prints `ok`, or each line that fails. */
#include "dresserduck.h"

#define N 9
#include "asked.h"

#include <math.h>

/* The last answer as it lies in memory: refusal, place, and what else it has, with 0 behind that. */
#define FIELDS (sizeof(dresserduck_recorded) / sizeof(uint64_t))
static uint64_t fields[FIELDS];

static void keep(const void *answer, size_t bytes)
{
    memset(fields, 0, sizeof fields);
    memcpy(fields, answer, bytes);
}

#define KEEPING(call, answer) \
    static void keep_##call(void) \
    { \
        answer got = call(); \
        keep(&got, sizeof got); \
    }
KEEPING(encode, dresserduck_encoded)
KEEPING(turns, dresserduck_turned)
KEEPING(colour, dresserduck_coloured)
KEEPING(stretch, dresserduck_stretched)
KEEPING(lesson, dresserduck_lessoned)
KEEPING(rhythm, dresserduck_grouped)
KEEPING(record, dresserduck_recorded)
KEEPING(taps, dresserduck_tapped)

enum { ENCODE, TURNS, COLOUR, STRETCH, LESSON, RHYTHM, RECORD, TAPS, CALLS };
static void (*const calls[CALLS])(void) = {
    keep_encode, keep_turns, keep_colour, keep_stretch, keep_lesson, keep_rhythm, keep_record, keep_taps};

/* By this call: every other field is 0, and nothing is written. */
static void expect_of(size_t call, uint64_t refusal)
{
    calls[call]();
    CHECK(fields[0] == refusal);
    for (size_t i = 1; i < FIELDS; i++) {
        CHECK(fields[i] == 0);
    }
    CHECK(untouched());
}

static void expect(uint64_t refusal)
{
    for (size_t call = 0; call < CALLS; call++) {
        expect_of(call, refusal);
    }
}

static void expect_accepted(void)
{
    for (size_t call = 0; call < CALLS; call++) {
        calls[call]();
        CHECK(fields[0] == DRESSERDUCK_ACCEPTED && fields[1] == 0 && cleared_for(n));
    }
}

/* The margin, the threshold and the tolerance. */
#define REALS 3
static double *const reals[REALS] = {&settings.margin, &settings.threshold, &settings.tolerance};

/* Just above; and just below, far away, and NaNs: the common one, a negative one, and one that signals. */
static void reals_outside(void)
{
    static const uint64_t above[REALS] = {0x4049000000000001u, 0x3FF0000000000001u, 0x3FF0000000000001u};
    static const uint64_t others[6] = {0x8000000000000001u, 0x7FF0000000000000u, 0xFFF0000000000000u, 0x7FF8000000000000u,
        0xFFF8000000000000u, 0x7FF0000000000001u};
    ask_about("dkkddk");
    for (size_t real = 0; real < REALS; real++) {
        memcpy(reals[real], &above[real], sizeof above[real]);
        expect(DRESSERDUCK_BAD_SETTINGS);
        for (size_t i = 0; i < 6; i++) {
            memcpy(reals[real], &others[i], sizeof others[i]);
            expect(DRESSERDUCK_BAD_SETTINGS);
        }
        settings = default_settings;
    }
    expect_accepted();
}

/* Two of them would be 16 if they were cut to 16 or to 32 bits. */
static void limits_outside(void)
{
    static const uint64_t limits[6] = {0, 1, 65, 65552, 4294967312u, UINT64_MAX};
    ask_about("dkkddk");
    for (size_t i = 0; i < 6; i++) {
        settings.search_limit = limits[i];
        expect(DRESSERDUCK_BAD_SETTINGS);
    }
}

static void inside(void)
{
    static const double most[REALS] = {50.0, 1.0, 1.0};
    ask_about("dkkddk");
    for (size_t real = 0; real < REALS; real++) {
        *reals[real] = 0.0;
        expect_accepted();
        *reals[real] = most[real];
        expect_accepted();
        settings = default_settings;
    }
    settings.search_limit = 2;
    expect_accepted();
    settings.search_limit = 64;
    expect_accepted();
}

static struct {
    uint64_t fields[FIELDS];
    unsigned char places[sizeof lent];
} kept;

static void remember(void)
{
    memcpy(kept.fields, fields, sizeof fields);
    memcpy(kept.places, &lent, sizeof lent);
}

static int as_remembered(void)
{
    return memcmp(kept.fields, fields, sizeof fields) == 0 && memcmp(kept.places, &lent, sizeof lent) == 0;
}

/* Each number has a group that tells 0.0 from the default of it: for the margin that with 104 among its deltas, for the threshold one of
 * own interval 109 after 100; for the tolerance the last ratio does. */
static void ask_about_zeros(size_t real)
{
    static const double deltas[9] = {104.0, 100.0, 100.0, 150.0, 150.0, 150.0, 109.0, 109.0, 109.0};
    ask_about("dkdkdkdkd");
    memcpy(delta, deltas, sizeof deltas);
    memcpy(highest, deltas, sizeof deltas);
    ratio[8] = 1.005;
    group = real == 0 ? 0 : 2;
}

/* -0.0 is answered as 0.0 is. That isn't how the default is answered, by the call that is named for the number. */
static void both_zeros(void)
{
    static const size_t heeding[REALS] = {RECORD, RECORD, COLOUR};
    for (size_t real = 0; real < REALS; real++) {
        for (size_t call = 0; call < CALLS; call++) {
            ask_about_zeros(real);
            calls[call]();
            remember();
            *reals[real] = 0.0;
            calls[call]();
            CHECK(fields[0] == DRESSERDUCK_ACCEPTED);
            CHECK(call != heeding[real] || !as_remembered());
            remember();
            *reals[real] = -0.0;
            calls[call]();
            CHECK(as_remembered());
        }
    }
}

static void spoil(size_t number)
{
    if (number < REALS) {
        *reals[number] = NAN;
    } else {
        settings.search_limit = 65;
    }
}

/* Each number is refused before an object's kind, wherever that is, and after a slice that is too short; record has no answer slice. */
static void between_slices_and_objects(void)
{
    for (size_t number = 0; number <= REALS; number++) {
        ask_about("dkkddk");
        kind[0] = 3;
        expect(DRESSERDUCK_BAD_KIND);
        spoil(number);
        expect(DRESSERDUCK_BAD_SETTINGS);
        work_places = 8 * n - 1;
        expect(DRESSERDUCK_SLICE_TOO_SHORT);
        work_places = 8 * n;
        places = n - 1;
        for (size_t call = 0; call < CALLS; call++) {
            expect_of(call, call == RECORD ? DRESSERDUCK_BAD_SETTINGS : DRESSERDUCK_SLICE_TOO_SHORT);
        }
        places = n;
        kind[0] = DRESSERDUCK_CENTER;
        kind[5] = 3;
        expect(DRESSERDUCK_BAD_SETTINGS);
    }
}

/* And before what only some calls refuse. */
static void before_each_calls_own(void)
{
    for (size_t number = 0; number <= REALS; number++) {
        ask_about("dkkddk");
        to = from;
        offsets[1] = offsets[0];
        lengths[0] = 0;
        window = NAN;
        highest[0] = 99.0;
        expect_of(STRETCH, DRESSERDUCK_BAD_STRETCH);
        expect_of(LESSON, DRESSERDUCK_BAD_LESSON);
        expect_of(RECORD, DRESSERDUCK_BAD_WINDOW);
        expect_of(TAPS, DRESSERDUCK_LOWEST_ABOVE_HIGHEST);
        spoil(number);
        expect(DRESSERDUCK_BAD_SETTINGS);
    }
}

int main(void)
{
    CHECK(DRESSERDUCK_BAD_SETTINGS == 16);
    reals_outside();
    limits_outside();
    inside();
    both_zeros();
    between_slices_and_objects();
    before_each_calls_own();
    return finish();
}
