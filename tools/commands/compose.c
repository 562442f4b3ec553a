#include <stdlib.h>

#include "../commands.h"
#include "../outputs.h"
#include "../refusal.h"

static int compose_call(const call *c, const char *to)
{
    run capture = {malloc(VIN_COMPOSED_MAX), 0};
    if (out_of_memory(capture.bytes))
        return MISUSE;
    vin_answer a = vin_plan_compose(&c->plan.plan, c->log.bytes, c->log.length, c->times.bytes.bytes,
                                    c->times.bytes.length, capture.bytes, VIN_COMPOSED_MAX);
    int status = REFUSED;
    capture.length = a.bytes;
    if (a.number != VIN_DONE)
        say_composing_refused(c, a);
    else
        status = write_one(to, &capture);
    free(capture.bytes);
    return status;
}

static int run_compose(const arguments *given)
{
    call c = {0};
    c.log_name = given->files[1];
    const char *times = given->values[OPT_TIMES] ? given->values[OPT_TIMES] : given->files[2];
    int status = MISUSE;
    if (given->values[OPT_TIMES] && given->files[2])
        complain("compose: the times are named twice: --times and a third file");
    else if (read_plan(given->files[0], &c.plan) && read_file(c.log_name, VIN_LOG_MAX, &c.log)
             && (!times || read_times(times, &c.times)))
        status = compose_call(&c, given->values[OPT_OUT]);
    drop_call(&c);
    return status;
}

static const option_row options[] = {
    {OPT_OUT, OUTPUT, "CAPTURE", "the capture"},
    {OPT_TIMES, INPUT, "FILE", "the frame times; they may also be the third file"},
    {OPTIONS, FLAG, NULL, NULL},
};

const command compose_command = {
    .name = "compose",
    .usage = "PLAN LOG [--times FILE] -o CAPTURE",
    .about = "pack a log into frames",
    .more = "\nThe log goes into the fewest groups that hold it, with fill after its last word. A plan with\n"
            "frame time needs a time for each group; without a file of times the refusal says how many.\n",
    .least = 2,
    .most = 3,
    .output = NEEDS_OUT,
    .options = options,
    .run = run_compose,
};
