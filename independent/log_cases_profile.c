#include "log_cases.h"

/* profile LOG -> NUMBER VALUE - */
void profile_line(const char *line, const char *asked)
{
    static run log, none;
    run_field(line, 1, &log);
    say_made("profile", ind_profile(log.bytes, log.length), &none, asked);
}
