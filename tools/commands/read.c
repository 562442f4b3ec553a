#include <stdlib.h>
#include <string.h>

#include "../commands.h"
#include "../outputs.h"
#include "../reading.h"

static int write_reading(const reading *r, const char *to, const char *times)
{
    output outputs[2] = {{to, r->log, r->answer.bytes}, {times, NULL, 0}};
    run text = {NULL, 0};
    if (times && !times_text(r->times, r->answer.times, &text))
        return MISUSE;
    outputs[1].bytes = text.bytes;
    outputs[1].length = text.length;
    bool good = write_files(outputs, times ? 2 : 1);
    free(text.bytes);
    return good ? DONE : MISUSE;
}

static int run_read(const arguments *given)
{
    reading r;
    const char *to = given->values[OPT_OUT];
    const char *times =
        given->values[OPT_TIMES_OUT] ? given->values[OPT_TIMES_OUT] : given->values[OPT_TIMES];
    if (given->values[OPT_TIMES_OUT] && given->values[OPT_TIMES]) {
        complain("read: --times is an old name of --times-out; one of them is enough");
        return MISUSE;
    }
    int status = read_capture(given->files[0], given->files[1], vin_plan_read, &r);
    if (status == DONE)
        status = write_reading(&r, to, times);
    if (status == DONE) {
        say_notes(&r);
        if (!times)
            say_times_unwritten(r.call.capture_name, r.answer.times, to);
    }
    drop_reading(&r);
    return status;
}

static const option_row options[] = {
    {OPT_OUT, OUTPUT, "LOG", "the log"},
    {OPT_TIMES_OUT, OUTPUT, "FILE", "the frame times; --times is an old name of it"},
    {OPT_TIMES, OUTPUT, "FILE", NULL},
    {OPTIONS, FLAG, NULL, NULL},
};

const command read_command = {
    .name = "read",
    .usage = "PLAN CAPTURE -o LOG [--times-out FILE]",
    .about = "read frames back into a log and times",
    .more = "\nThe plain reading: fill is passed over in any slot and on any bus.\n",
    .least = 2,
    .most = 2,
    .output = NEEDS_OUT,
    .options = options,
    .run = run_read,
};
