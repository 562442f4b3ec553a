#include <stdlib.h>
#include <string.h>

#include "log_cases.h"

/* The number behind so many spaces, with its sign. */
static int64_t signed_field(const char *line, int spaces)
{
    return strtoll(field(line, spaces), NULL, 10);
}

/* Whether the answer counts so many entries, and the row holds what is asked for. */
static bool is_row(ind_answer a, const run *row, const char *asked)
{
    static run holds;
    run_field(asked, 5, &holds);
    return a.times == number_field(asked, 4) && row->length == holds.length && memcmp(row->bytes, holds.bytes, row->length) == 0;
}

/* shift MICROSECONDS LOG TIMES ROOM -> NUMBER VALUE MADE ENTRIES ROW */
void shift_line(const char *line, const char *asked)
{
    static run log, row, out;
    ind_answer a;
    run_field(line, 2, &log);
    run_field(line, 3, &row);
    room_field(line, 4, &out);
    a = ind_shift(log.bytes, log.length, signed_field(line, 1), row.bytes, row.length, out.bytes, out.length);
    say_call("shift", a, &out, asked);
    printf(" %" PRIu64, digest_of(&row));
    say_unless(is_row(a, &row, asked));
    printf("\n");
}
