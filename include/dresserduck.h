/* Dresserduck: how new each change of colour in a drum chart is, and its rhythm groups, computed by proved code.
 *
 * A chart is four slices of one length n, from 0 to 16,384, with a place for each object:
 *   kind   DRESSERDUCK_CENTER, DRESSERDUCK_RIM or DRESSERDUCK_NON_HIT
 *   start  when it starts, in milliseconds: finite and within +-16,777,216
 *   delta  the time since the object before it, in milliseconds: finite and within +-16,777,216
 *   ratio  its rhythm ratio, from 2^-24 to 2^24
 * dresserduck_taps takes a chart whose deltas are not known exactly, as a foot switch gives it. It is five slices, with two for delta:
 *   lowest, highest  the least and the most that the delta may be, both as a delta must be, lowest not above highest
 * dresserduck_build makes a chart of raw objects, as an editor holds them: two slices of one length m, from 0 to 16,386. The first
 * two raw objects become no object: n is m - 2, or 0 where m is below 2.
 *
 * A call takes its chart, then the settings, then plain arguments, then the slices that it is lent: those that it fills with n
 * answers each, and two to work in, `work` and `scratch`. dresserduck_build takes raw objects where the others take the chart, and has
 * no settings and no slices to work in. dresserduck_lesson takes the pairs of a lesson behind the settings, as two slices of one
 * length, and fills two of its answer slices with an answer for each pair. A slice is a pointer and a count of elements, and may be
 * longer than needed where it is lent. A pointer is aligned for its element and not null, also where the count is 0. No slice that is
 * lent overlaps another slice; those of the chart, of the raw objects and of the pairs are only read, and may overlap each other.
 *
 * Every call answers every input. Either `refusal` is DRESSERDUCK_ACCEPTED: an answer slice has its answers in the first n places, or
 * in as many as there are pairs, the work slices are left 0 in as many places as they need, and what any slice held past these it
 * still holds. One answer slice may be left as it was: `group` of dresserduck_taps. Or `refusal` is the number of the first refusal
 * that applies and `place` says where: then every other field is 0, and every lent slice is as it was.
 *
 * The calls keep nothing from one to the next and take no memory but what they are lent and the stack, so that several threads may
 * call at once, each with slices of its own to fill.
 */
#ifndef DRESSERDUCK_H
#define DRESSERDUCK_H

#include <stddef.h>
#include <stdint.h>
#include <string.h>

#ifdef __cplusplus
extern "C" {
#endif

/* The kinds of objects. */
enum {
    DRESSERDUCK_CENTER = 0,
    DRESSERDUCK_RIM = 1,
    DRESSERDUCK_NON_HIT = 2 /* no note: it has no rhythm group */
};

/* The most objects that a chart may have, and the most raw objects that one is built of. */
enum {
    DRESSERDUCK_LARGEST_CHART = 16384,
    DRESSERDUCK_LARGEST_RAW_CHART = 16386
};

/* The refusals. They are tested in this order: 1 to 3 for the call, then 10 or 16, then 4 to 7 for one object after another, then 8, 9
 * and 11. For dresserduck_taps 15 stands between 6 and 7. For dresserduck_lesson 17 comes behind 7, and then 9 and 11 for one pair
 * after another. `place` is the object's number, counted from 0, for 4 to 7 and 15, the pair's for 9 and 11 of dresserduck_lesson, and
 * 0 for the others. For dresserduck_build it is the number of the object that would be built, and 4 to 6 are about that object's kind,
 * start and delta. */
enum {
    DRESSERDUCK_ACCEPTED = 0,

    /* the host programmer's */
    DRESSERDUCK_TOO_MANY_OBJECTS = 1, /* n is over 16,384, or m over 16,386, counted on the kind slice */
    DRESSERDUCK_LENGTHS_DIFFER = 2,   /* the chart's slices, or the two of the raw objects or of the pairs, are not of one length */
    DRESSERDUCK_SLICE_TOO_SHORT = 3,  /* an answer slice has fewer than n places, or than pairs, or a work slice too few */

    /* the chart writer's, at the object `place` */
    DRESSERDUCK_BAD_KIND = 4,  /* above 2 */
    DRESSERDUCK_BAD_START = 5, /* not finite, or outside +-16,777,216 */
    DRESSERDUCK_BAD_DELTA = 6, /* not finite, or outside +-16,777,216; for dresserduck_taps the lowest or the highest */
    DRESSERDUCK_BAD_RATIO = 7, /* outside 2^-24 to 2^24, or a NaN; never for dresserduck_build */
    DRESSERDUCK_LOWEST_ABOVE_HIGHEST = 15, /* dresserduck_taps: lowest > highest; the two zeros are equal. Tested between 6 and 7 */

    /* the player's settings'; 9 has two names, as its causes are two */
    DRESSERDUCK_BAD_WINDOW = 8,  /* dresserduck_record: the window lies outside 1.0 to 1,000.0, or is a NaN */
    DRESSERDUCK_BAD_STRETCH = 9, /* dresserduck_stretch: a >= b or b > n; dresserduck_lesson: a pair's stretch is empty or ends past n */
    DRESSERDUCK_BAD_GROUP = 9,   /* dresserduck_record: the group's number is not below the number of groups */
    DRESSERDUCK_BAD_RATE = 10,   /* dresserduck_build: the rate lies outside 0.25 to 4.0, or is a NaN */
    DRESSERDUCK_NO_NOTE = 11,    /* dresserduck_stretch: all objects from a to b are NonHits; dresserduck_lesson: all of a pair's stretch */
    DRESSERDUCK_BAD_SETTINGS = 16, /* all but dresserduck_build: a number of the settings lies outside its range, or is a NaN */
    DRESSERDUCK_BAD_LESSON = 17    /* dresserduck_lesson: more than 32 pairs, or an offset that is not above the one before it */
};

/* The settings: four numbers that every call on a chart takes by value, for the player at hand. Two charts are compared fairly only
 * under the same ones. */
typedef struct dresserduck_settings {
    double margin;         /* how far apart two times may lie and still be near, in milliseconds: from 0.0 to 50.0 */
    uint64_t search_limit; /* a repetition of a hit pattern is searched less than this many hit patterns back: from 2 to 64 */
    double threshold;      /* own intervals count as repeated where their quotient is no further from 1: from 0.0 to 1.0 */
    double tolerance;      /* a ratio counts as that two objects before where their quotient is no further from 1: from 0.0 to 1.0 */
} dresserduck_settings;

/* The settings of the original, to begin with: `dresserduck_settings s = DRESSERDUCK_DEFAULT_SETTINGS;` */
#define DRESSERDUCK_DEFAULT_SETTINGS {5.0, 16, 0.1, 0.01}

/* How many places the two work slices need for n objects; a constant where n is one. */
#define DRESSERDUCK_WORK_PLACES(n) (8 * (size_t)(n))
#define DRESSERDUCK_SCRATCH_PLACES(n) ((size_t)(n))

/* The double of a field whose name ends in `_bits`. */
static inline double dresserduck_double(uint64_t bits)
{
    double x;
    memcpy(&x, &bits, sizeof x);
    return x;
}

/* What dresserduck_build answers; `refusal` and `place` as above. */
typedef struct dresserduck_built {
    uint64_t refusal;
    uint64_t place;
    uint64_t objects; /* n, how many objects the built chart has */
} dresserduck_built;

/* Builds a chart, which every other call accepts, of m raw objects:
 *   kind  as in a chart; the first two are not read
 *   time  when it starts, in milliseconds; the first is not read, and the second only for the delta of object 0
 *   rate  how many times as fast as written the chart is played, from 0.25 to 4.0
 * Fills the chart's four slices. Object i is made of the raw object i + 2:
 *   built_kind  its kind
 *   start       its time, divided by the rate
 *   delta       its time less that of the raw object before it, divided by the rate
 *   ratio       1 for the first object; else, where q is its delta over the delta before, the first of 1, 2, 1/2, 3, 1/3, 3/2, 2/3,
 *               5/4 and 4/5 whose distance from q, as rounded, is the least, and 1 where q is not finite */
dresserduck_built dresserduck_build(
    const uint8_t *kind, size_t kind_count,
    const double *time, size_t time_count,
    double rate,
    uint8_t *built_kind, size_t built_kind_count,
    double *start, size_t start_count,
    double *delta, size_t delta_count,
    double *ratio, size_t ratio_count);

/* What dresserduck_encode answers; `refusal` and `place` as above. */
typedef struct dresserduck_encoded {
    uint64_t refusal;
    uint64_t place;
    uint64_t hit_patterns; /* how many hit patterns the chart has */
} dresserduck_encoded;

/* Fills per object six numbers, counted from 0 all but the last:
 *   streak         its streak
 *   streak_place   that one's place in its alternating pattern
 *   pattern        its alternating pattern
 *   pattern_place  that one's place in its hit pattern
 *   hit            its hit pattern
 *   interval       how many hit patterns back the last one like it was, below the search limit; the limit plus 1 for none. Under the
 *                  default settings it is 1 to 15, or 17 */
dresserduck_encoded dresserduck_encode(
    const uint8_t *kind, size_t kind_count,
    const double *start, size_t start_count,
    const double *delta, size_t delta_count,
    const double *ratio, size_t ratio_count,
    dresserduck_settings settings,
    uint16_t *streak, size_t streak_count,
    uint16_t *streak_place, size_t streak_place_count,
    uint16_t *pattern, size_t pattern_count,
    uint16_t *pattern_place, size_t pattern_place_count,
    uint16_t *hit, size_t hit_count,
    uint8_t *interval, size_t interval_count,
    uint16_t *work, size_t work_count,
    double *scratch, size_t scratch_count);

/* The number that stands for a note that is not there. */
enum { DRESSERDUCK_NO_TURN = 65535 };

/* What dresserduck_turns answers; `refusal` and `place` as above. */
typedef struct dresserduck_turned {
    uint64_t refusal;
    uint64_t place;
} dresserduck_turned;

/* Says where the colour turns. Fills per object two numbers of notes, which count Center and Rim alone, from 0. All objects of a
 * streak have the same two:
 *   previous  the note before the first object of its streak; DRESSERDUCK_NO_TURN where there is none, or where that object is a NonHit
 *   next      the note after the last object of its streak; DRESSERDUCK_NO_TURN where there is none. Where that object is a NonHit, the
 *             streak is this NonHit alone, and it is note 1, wherever the NonHit stands; DRESSERDUCK_NO_TURN with fewer than two notes */
dresserduck_turned dresserduck_turns(
    const uint8_t *kind, size_t kind_count,
    const double *start, size_t start_count,
    const double *delta, size_t delta_count,
    const double *ratio, size_t ratio_count,
    dresserduck_settings settings,
    uint16_t *previous, size_t previous_count,
    uint16_t *next, size_t next_count,
    uint16_t *work, size_t work_count,
    double *scratch, size_t scratch_count);

/* What dresserduck_colour answers; `refusal` and `place` as above. */
typedef struct dresserduck_coloured {
    uint64_t refusal;
    uint64_t place;
} dresserduck_coloured;

/* Fills per object its colour value, which tells how new the change of colour there is, not how fast it comes: no time enters
 * it, and the tempo is for the host, or for the player's limit, to bring in. Where the colour stays it is 0. In an even rhythm
 * (every ratio 1) a value is at most about 2.99 from the third object on, and at most about 4.98 at the first two. In other
 * rhythms, under the default tolerance, the ratio two objects earlier decides from the fifth object on: a value is at most about 1
 * after a ratio of 2, and negative after one above 2.5. In an even rhythm alternations of one length score lowest of all that
 * change. Never a NaN or an infinity. */
dresserduck_coloured dresserduck_colour(
    const uint8_t *kind, size_t kind_count,
    const double *start, size_t start_count,
    const double *delta, size_t delta_count,
    const double *ratio, size_t ratio_count,
    dresserduck_settings settings,
    double *value, size_t value_count,
    uint16_t *work, size_t work_count,
    double *scratch, size_t scratch_count);

/* What dresserduck_stretch answers; `refusal` and `place` as above. */
typedef struct dresserduck_stretched {
    uint64_t refusal;
    uint64_t place;
    double mean;    /* the sum over the notes from left to right, divided by how many they are; never a NaN or an infinity */
    int64_t tenths; /* the whole number nearest to ten times the mean, of two as near the even one: of 0.25 it is 2, of 0.75 it is 8 */
} dresserduck_stretched;

/* Fills the colour values of all objects as dresserduck_colour does, and returns the mean of those of the notes from a to b, b not
 * included. A NonHit there counts for nothing, neither with its value nor in the number that the sum is divided by. */
dresserduck_stretched dresserduck_stretch(
    const uint8_t *kind, size_t kind_count,
    const double *start, size_t start_count,
    const double *delta, size_t delta_count,
    const double *ratio, size_t ratio_count,
    dresserduck_settings settings,
    size_t a, size_t b,
    double *value, size_t value_count,
    uint16_t *work, size_t work_count,
    double *scratch, size_t scratch_count);

/* The most stretches that a lesson may have. */
enum { DRESSERDUCK_MOST_PAIRS = 32 };

/* What dresserduck_lesson answers; `refusal` and `place` as above. */
typedef struct dresserduck_lessoned {
    uint64_t refusal;
    uint64_t place;
} dresserduck_lessoned;

/* Tells the means of several stretches of a chart at once, which are accepted as a set or not at all. They come as pairs, one for each
 * stretch, from none to 32; they may overlap each other:
 *   offset  its first object; each is above the one before
 *   length  how many objects it has. It ends before the exact sum of the two, which does not wrap
 * Fills the colour values of all objects as dresserduck_colour does, and per pair what dresserduck_stretch answers of its stretch:
 *   mean    the mean over its notes
 *   tenths  that in tenths, to the nearest */
dresserduck_lessoned dresserduck_lesson(
    const uint8_t *kind, size_t kind_count,
    const double *start, size_t start_count,
    const double *delta, size_t delta_count,
    const double *ratio, size_t ratio_count,
    dresserduck_settings settings,
    const uint64_t *offset, size_t offset_count,
    const uint64_t *length, size_t length_count,
    double *value, size_t value_count,
    double *mean, size_t mean_count,
    int64_t *tenths, size_t tenths_count,
    uint16_t *work, size_t work_count,
    double *scratch, size_t scratch_count);

/* The number that stands for a NonHit's group and pattern group. */
enum { DRESSERDUCK_NO_GROUP = 65535 };

/* What dresserduck_rhythm answers; `refusal` and `place` as above. */
typedef struct dresserduck_grouped {
    uint64_t refusal;
    uint64_t place;
    uint64_t groups;         /* how many rhythm groups the chart has */
    uint64_t pattern_groups; /* how many pattern groups */
} dresserduck_grouped;

/* Fills per object two numbers, counted from 0; both are DRESSERDUCK_NO_GROUP for a NonHit:
 *   group    its rhythm group
 *   pattern  that one's pattern group */
dresserduck_grouped dresserduck_rhythm(
    const uint8_t *kind, size_t kind_count,
    const double *start, size_t start_count,
    const double *delta, size_t delta_count,
    const double *ratio, size_t ratio_count,
    dresserduck_settings settings,
    uint16_t *group, size_t group_count,
    uint16_t *pattern, size_t pattern_count,
    uint16_t *work, size_t work_count,
    double *scratch, size_t scratch_count);

/* What is sure of a note and the next one, NonHits between them passed over, whatever deltas inside their ranges they have. They are
 * near where the two deltas differ by at most the margin; where not, they are a rise if the second is above the first plus the margin.
 * Both the difference and the sum are rounded to doubles. */
enum {
    DRESSERDUCK_NEAR = 0,     /* surely near */
    DRESSERDUCK_RISE = 1,     /* surely a rise */
    DRESSERDUCK_NEITHER = 2,  /* surely neither */
    DRESSERDUCK_OPEN = 3,     /* not the same for all such deltas */
    DRESSERDUCK_NO_PAIR = 255 /* for a NonHit and for the last note, which have no such pair */
};

/* What dresserduck_taps answers; `refusal` and `place` as above. */
typedef struct dresserduck_tapped {
    uint64_t refusal;
    uint64_t place;
    uint64_t open;   /* 1 where the grouping looks at a pair that is open; else 0 */
    uint64_t groups; /* how many rhythm groups the chart has; 0 where `open` is 1 */
} dresserduck_tapped;

/* Says what holds for every chart that has these kinds and a delta inside each of these ranges. Fills per object
 *   pair   what is sure of it and the next note: DRESSERDUCK_NEAR to DRESSERDUCK_OPEN, or DRESSERDUCK_NO_PAIR
 *   group  where `open` is 0, its rhythm group, DRESSERDUCK_NO_GROUP for a NonHit: what dresserduck_rhythm gives for all those charts.
 *          Where it is 1, this slice is left as it was
 * Not every pair is looked at. Of two notes none is; of more, neither the first pair, nor the one right behind a rise that was looked
 * at, unless it is the last, which always is. An open pair that isn't looked at leaves `open` 0. */
dresserduck_tapped dresserduck_taps(
    const uint8_t *kind, size_t kind_count,
    const double *start, size_t start_count,
    const double *lowest, size_t lowest_count,
    const double *highest, size_t highest_count,
    const double *ratio, size_t ratio_count,
    dresserduck_settings settings,
    uint8_t *pair, size_t pair_count,
    uint16_t *group, size_t group_count,
    uint16_t *work, size_t work_count,
    double *scratch, size_t scratch_count);

/* What dresserduck_record answers; `refusal` and `place` as above. A field whose name ends in `_bits` is the bit pattern of a
 * double, which dresserduck_double turns into one; a NaN is 7FF8000000000000. */
typedef struct dresserduck_recorded {
    uint64_t refusal;
    uint64_t place;
    uint64_t first_note;         /* the number of the object that is the group's first note */
    uint64_t note_count;         /* how many notes the group has */
    uint64_t has_own;            /* 1 where the group has an own interval, which takes two notes; else 0 */
    uint64_t own_bits;           /* the own interval in milliseconds, a whole number; 0 where it is absent */
    uint64_t ratio_bits;         /* own interval over that of the group before; 1.0 where either is absent, NaN for two zeros */
    uint64_t interval_bits;      /* from the start of the group before; 0.0 within the margin, infinity for the first group */
    uint64_t penalty_bits;       /* a factor: smaller where two of the last groups have nearly one own interval, and for a long group; finite */
    uint64_t pattern_group;      /* the number of its pattern group */
    uint64_t pattern_ratio_bits; /* that one's interval over that of the pattern group before; 1.0 for the first, NaN for two zeros */
} dresserduck_recorded;

/* Returns one rhythm group:
 *   group   its number, as dresserduck_rhythm counts them
 *   window  the hit window in milliseconds, from 1.0 to 1,000.0 */
dresserduck_recorded dresserduck_record(
    const uint8_t *kind, size_t kind_count,
    const double *start, size_t start_count,
    const double *delta, size_t delta_count,
    const double *ratio, size_t ratio_count,
    dresserduck_settings settings,
    size_t group, double window,
    uint16_t *work, size_t work_count,
    double *scratch, size_t scratch_count);

#ifdef __cplusplus
}
#endif

#endif
