/* What the C programs share: settings, a colour value, facts that are checked, and the answer of `main`. */
#include "dresserduck.h"

#include <stdio.h>
#include <string.h>

static const dresserduck_settings default_settings = DRESSERDUCK_DEFAULT_SETTINGS;

/* The default ones, the narrowest and the widest. */
#define SETS 3
static const dresserduck_settings sets[SETS] = {DRESSERDUCK_DEFAULT_SETTINGS, {0.0, 2, 0.0, 0.0}, {50.0, 64, 1.0, 1.0}};

#define CHECK(fact) check((fact) ? 1 : 0, #fact, __FILE__, __LINE__)

static int failures = 0;

static inline void check(int holds, const char *fact, const char *file, int line)
{
    if (!holds) {
        printf("%s:%d: %s\n", file, line, fact);
        failures += 1;
    }
}

/* By T(0) and the T of its interval, the colour value of an object that opens all three groups, before its penalty. */
static inline double opening_value(double t)
{
    double t0 = dresserduck_double(0x3FEFDC7BB58F155Bu);
    double hit = 2.0 * (1.0 - t), alt = t0 * hit, mono = t0 * alt * 0.5;
    return mono + alt + hit;
}

/* The same of an object whose interval is 17. */
static inline double new_value(void)
{
    return opening_value(dresserduck_double(0x3C4210F50A27FC81u));
}

static inline int finish(void)
{
    if (failures > 0) {
        return 1;
    }
    printf("ok\n");
    return 0;
}
