#include "log_cases.h"

/* pick BUSES LOG ROOM -> NUMBER VALUE MADE */
void pick_line(const char *line, const char *asked)
{
    static run log, out;
    ind_answer a;
    run_field(line, 2, &log);
    room_field(line, 3, &out);
    a = ind_pick(log.bytes, log.length, (uint16_t)number_field(line, 1), out.bytes, out.length);
    say_made("pick", a, &out, asked);
}
