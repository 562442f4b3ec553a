#include "shift.h"

#include <string.h>

#include "say.h"

static const struct {
    const char *name;
    uint64_t microseconds;
} units[] = {{"", 1},
             {"us", 1},
             {"ms", 1000},
             {"s", 1000000},
             {"min", 60000000},
             {"h", UINT64_C(3600000000)},
             {"d", UINT64_C(86400000000)}};

enum { FRACTION_MOST = 6 }; /* digits behind the point */

/* A number at the front of a text, in millionths. */
typedef struct {
    uint64_t whole, millionths;
    size_t digits, fraction; /* written before and behind the point */
} written;

static uint64_t add_digit(uint64_t value, char digit)
{
    uint64_t more = (uint64_t)(digit - '0');
    return value > (INT64_MAX - more) / 10 ? INT64_MAX : 10 * value + more;
}

static written take_written(const char **text)
{
    written w = {0, 0, 0, 0};
    const char *at = *text;
    for (; *at >= '0' && *at <= '9'; at++, w.digits++)
        w.whole = add_digit(w.whole, *at);
    if (*at == '.')
        for (at++; *at >= '0' && *at <= '9'; at++, w.fraction++)
            w.millionths = add_digit(w.millionths, *at);
    for (size_t n = w.fraction; n < FRACTION_MOST; n++)
        w.millionths *= 10;
    *text = at;
    return w;
}

/* How many microseconds the unit has; 0 if it is none. */
static uint64_t unit_of(const char *name)
{
    for (size_t n = 0; n < sizeof units / sizeof *units; n++)
        if (strcmp(name, units[n].name) == 0)
            return units[n].microseconds;
    return 0;
}

bool read_shift(const char *command, const char *text, int64_t *microseconds)
{
    const char *rest = text + (*text == '-' || *text == '+');
    bool point = rest[strspn(rest, "0123456789")] == '.';
    written w = take_written(&rest);
    uint64_t unit = unit_of(rest), parts = w.millionths * unit;
    if (unit == 0 || w.digits == 0 || w.fraction > FRACTION_MOST || (point && w.fraction == 0)) {
        complain("%s: \"%s\" is no shift: microseconds, or a number with us, ms, s, min, h or d, as in -1.5s",
                 command, show(text).text);
        return false;
    }
    if (parts % 1000000 != 0) {
        complain("%s: \"%s\" is no whole number of microseconds", command, show(text).text);
        return false;
    }
    bool fits = w.whole <= (uint64_t)INT64_MAX / unit - 1; /* with a part of one more */
    int64_t value = fits ? (int64_t)(w.whole * unit + parts / 1000000) : INT64_MAX;
    *microseconds = *text != '-' ? value : fits ? -value : INT64_MIN;
    return true;
}
