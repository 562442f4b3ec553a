#include "reading.h"

#include <stdlib.h>

#include "hints.h"

enum { TIMES_ROOM = VIN_READ_GROUPS_MAX * VIN_TIME_BYTES };

int read_capture(const char *plan_name, const char *capture_name, reader *by, reading *r)
{
    *r = (reading){0};
    call *c = &r->call;
    c->capture_name = capture_name;
    r->log = malloc(VIN_LOG_MAX);
    r->times = malloc(TIMES_ROOM);
    if (out_of_memory(r->log) || out_of_memory(r->times) || !read_plan(plan_name, &c->plan)
        || !read_file(capture_name, VIN_CAPTURE_MAX, &c->capture))
        return MISUSE;
    r->answer =
        by(&c->plan.plan, c->capture.bytes, c->capture.length, r->log, VIN_LOG_MAX, r->times, TIMES_ROOM);
    if (r->answer.number == VIN_DONE)
        return DONE;
    say_reading_refused(c, r->answer);
    return REFUSED;
}

void drop_reading(reading *r)
{
    drop_call(&r->call);
    free(r->log);
    free(r->times);
}

void say_notes(const reading *r)
{
    const call *c = &r->call;
    if (c->capture.length == 0)
        complain("%s: note: the capture has no bytes: that is the capture of an empty log",
                 input_name(c->capture_name).text);
    else
        say_hints("note", c->capture_name, &c->plan.plan, &c->capture);
}

/* In a pipe the times are often not wanted; beside a file they are easily forgotten. */
void say_times_unwritten(const char *capture_name, uint64_t times, const char *log_to)
{
    if (times > 0 && !is_standard(log_to))
        complain("%s: note: frame times not kept: %llu; --times-out FILE writes them",
                 input_name(capture_name).text, (unsigned long long)times);
}
