/* salvage PLAN CAPTURE LOG TIMES REPORT -> NUMBER VALUE MADE SECOND ENTRIES ROW NAMED LOST
 *
 * The salvage of a damaged capture (document 02, K10). */
#include <string.h>

#include "log_cases.h"

enum { ENTRIES_ROOM = RUN_ROOM / 8 };

/* A report as a run of eight bytes an entry. */
static void spread(const uint64_t *report, size_t entries, run *r)
{
    r->length = 8 * entries;
    for (size_t n = 0; n < r->length; n++)
        r->bytes[n] = (uint8_t)(report[n / 8] >> (56 - 8 * (n % 8)));
}

static void say_salvaged(ind_salvaged a, const run *log, const char *asked)
{
    ind_answer as = {a.number, a.place, a.second, a.bytes, a.times};
    printf("salvage %" PRIu32 " %" PRIu64 " %" PRIu64 " %" PRIu64 " %" PRIu64 " %" PRIu64 " %" PRIu64, a.number, a.place, a.second, a.bytes,
           a.times, a.entries, digest_of(log));
    say_unless(is_asked(as, number_field(asked, 4), asked) && (a.number == 0 || a.entries == 0));
    say_unless(is_made(a.bytes, log, asked));
}

void salvage_line(const char *line, const char *asked)
{
    static run kinds, capture, log, times, named;
    static uint64_t report[ENTRIES_ROOM];
    size_t room = (size_t)number_field(line, 12);
    ind_salvaged a;
    run_field(line, 8, &kinds);
    run_field(line, 9, &capture);
    room_field(line, 10, &log);
    room_field(line, 11, &times);
    memset(report, 0xA5, sizeof report);
    a = ind_salvage(PLAN_FIELDS(line), kinds.bytes, kinds.length, capture.bytes, capture.length, log.bytes, log.length, times.bytes,
                    times.length, report, room);
    spread(report, room, &named);
    say_salvaged(a, &log, asked);
    say_times(a.times, &times, asked, 5);
    say_times(a.entries, &named, asked, 7);
    printf("\n");
}
