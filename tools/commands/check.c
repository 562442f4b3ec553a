#include <stdio.h>

#include "../commands.h"
#include "../reading.h"

static int run_check(const arguments *given)
{
    reading r;
    int status = read_capture(given->files[0], given->files[1], vin_plan_read_closed, &r);
    if (status == DONE) {
        printf("yes: a log of %llu byte%s, frame times: %llu\n", (unsigned long long)r.answer.bytes,
               r.answer.bytes == 1 ? "" : "s", (unsigned long long)r.answer.times);
        say_notes(&r);
    }
    drop_reading(&r);
    return status;
}

static const option_row options[] = {{OPTIONS, FLAG, NULL, NULL}};

const command check_command = {
    .name = "check",
    .usage = "PLAN CAPTURE",
    .about = "say whether composing made exactly this capture",
    .more =
        "\nThe closed reading: as read, but fill must stand just where composing puts it. A capture of no\n"
        "bytes is that of the empty log; a note says so.\n",
    .least = 2,
    .most = 2,
    .output = PRINTS,
    .options = options,
    .run = run_check,
};
