/* Lists a chart's hit patterns and marks each whose notes have a mean colour value above a limit.
 *
 * usage: marks LIMIT < chart      a line an object: d, k or n, then its start, delta and ratio
 */
#include "dresserduck.h"

#include <stdio.h>
#include <stdlib.h>

/* one more than a chart may have, so that a larger one is refused by the library and not cut short here */
#define MOST (DRESSERDUCK_LARGEST_CHART + 1)
#define CHART kind, n, start, n, delta, n, ratio, n, settings
#define WORK work, DRESSERDUCK_WORK_PLACES(n), scratch, DRESSERDUCK_SCRATCH_PLACES(n)

static const dresserduck_settings settings = DRESSERDUCK_DEFAULT_SETTINGS;
static uint8_t kind[MOST], interval[MOST];
static double start[MOST], delta[MOST], ratio[MOST], value[MOST];
static uint16_t streak[MOST], streak_place[MOST], pattern[MOST], pattern_place[MOST], hit[MOST];
static uint16_t work[DRESSERDUCK_WORK_PLACES(MOST)];
static double scratch[DRESSERDUCK_SCRATCH_PLACES(MOST)];

static void check(int good, const char *why)
{
    if (!good) {
        fprintf(stderr, "%s\n", why);
        exit(2);
    }
}

static void check_accepted(uint64_t refusal, uint64_t place)
{
    if (refusal != DRESSERDUCK_ACCEPTED) {
        printf("refused %llu at %llu\n", (unsigned long long)refusal, (unsigned long long)place);
        exit(1);
    }
}

/* How many objects there are, at most MOST. A letter that is no kind becomes one that the library refuses. */
static size_t read_chart(void)
{
    size_t n = 0;
    char letter;
    int read;
    while (n < MOST && (read = scanf(" %c %lf %lf %lf", &letter, &start[n], &delta[n], &ratio[n])) != EOF) {
        check(read == 4, "an object is no letter and three numbers");
        kind[n++] = letter == 'd' ? DRESSERDUCK_CENTER : letter == 'k' ? DRESSERDUCK_RIM : letter == 'n' ? DRESSERDUCK_NON_HIT : UINT8_MAX;
    }
    return n;
}

static void print_stretch(size_t n, size_t a, size_t b, double limit)
{
    dresserduck_stretched got = dresserduck_stretch(CHART, a, b, value, n, WORK);
    if (got.refusal == DRESSERDUCK_NO_NOTE) {
        printf("%zu to %zu: interval %u, no note\n", a, b, interval[a]);
        return;
    }
    check_accepted(got.refusal, got.place);
    printf("%zu to %zu: interval %u, tenths %lld%s\n", a, b, interval[a], (long long)got.tenths, got.mean > limit ? " *" : "");
}

int main(int count, char **arguments)
{
    char *end = NULL;
    double limit = count == 2 ? strtod(arguments[1], &end) : 0.0;
    check(count == 2 && end != arguments[1] && *end == '\0', "usage: marks LIMIT < chart");

    size_t n = read_chart();
    dresserduck_encoded got = dresserduck_encode(
        CHART, streak, n, streak_place, n, pattern, n, pattern_place, n, hit, n, interval, n, WORK);
    check_accepted(got.refusal, got.place);
    printf("%llu hit patterns\n", (unsigned long long)got.hit_patterns);
    for (size_t a = 0, b = 1; b <= n; b++) {
        if (b == n || hit[b] != hit[a]) {
            print_stretch(n, a, b, limit);
            a = b;
        }
    }
    return 0;
}
