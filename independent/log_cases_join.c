#include "log_cases.h"

/* join FIRST SECOND ROOM -> NUMBER VALUE MADE */
void join_line(const char *line, const char *asked)
{
    static run first, second, out;
    ind_answer a;
    run_field(line, 1, &first);
    run_field(line, 2, &second);
    room_field(line, 3, &out);
    a = ind_join(first.bytes, first.length, second.bytes, second.length, out.bytes, out.length);
    say_made("join", a, &out, asked);
}
