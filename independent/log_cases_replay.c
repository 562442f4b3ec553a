#include "log_cases.h"

/* Document 02: "words sent, items lost, words held"; of a refusal they are 0, as every length is. */
static bool is_counted(ind_replayed a, const char *asked)
{
    if (a.number != number_field(asked, 1) || a.second != 0)
        return false;
    if (a.number != 0)
        return a.place == number_field(asked, 2) && a.bytes == 0 && a.sent == 0 && a.lost == 0 && a.held == 0;
    return a.place == 0 && a.bytes == number_field(asked, 2) && a.sent == number_field(asked, 4) && a.lost == number_field(asked, 5)
           && a.held == number_field(asked, 6);
}

/* replay LOG EVENTS CAPACITY SLOTS ROOM -> NUMBER VALUE MADE SENT LOST HELD */
void replay_line(const char *line, const char *asked)
{
    static run log, events, out;
    ind_replayed a;
    run_field(line, 1, &log);
    run_field(line, 2, &events);
    room_field(line, 5, &out);
    a = ind_replay(log.bytes, log.length, events.bytes, events.length, (uint32_t)number_field(line, 3), (uint32_t)number_field(line, 4),
                   out.bytes, out.length);
    printf("replay %" PRIu32 " %" PRIu64 " %" PRIu64 " %" PRIu64 " %" PRIu64 " %" PRIu64 " %" PRIu64 " %" PRIu64, a.number, a.place,
           a.second, a.bytes, a.sent, a.lost, a.held, digest_of(&out));
    say_unless(is_counted(a, asked));
    say_unless(is_made(a.bytes, &out, asked));
    printf("\n");
}
