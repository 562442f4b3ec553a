#include "buses.h"

#include <stdlib.h>
#include <string.h>

#include "../include/vinculampe.h"
#include "say.h"

/* The bus at the front of a text, which then begins behind it; 16 if none is there. */
static unsigned take_bus(const char **text)
{
    size_t digits = strspn(*text, "0123456789");
    unsigned bus = digits == 1 || digits == 2 ? (unsigned)strtoul(*text, NULL, 10) : 16;
    *text += digits;
    return bus < 16 ? bus : 16;
}

/* "5" or "5-7" at the front of a text. */
static bool take_range(const char **text, uint16_t *set)
{
    unsigned first = take_bus(text), last = first;
    if (first < 16 && **text == '-') {
        ++*text;
        last = take_bus(text);
    }
    if (last == 16 || last < first)
        return false;
    for (unsigned bus = first; bus <= last; bus++)
        *set |= VIN_BUS_BIT(bus);
    return true;
}

bool read_buses(const char *command, const char *text, uint16_t *set)
{
    const char *rest = text;
    *set = strcmp(text, "all") == 0 ? VIN_ALL_BUSES : 0;
    if (*set)
        return true;
    while (take_range(&rest, set)) {
        if (!*rest)
            return true;
        if (*rest++ != ',')
            break;
    }
    complain("%s: \"%s\" is no set of buses: numbers 0 to 15 and ranges, as in 2,5-7; or all", command,
             show(text).text);
    return false;
}
