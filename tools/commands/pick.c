#include <stdlib.h>

#include "../buses.h"
#include "../commands.h"
#include "../outputs.h"
#include "../refusal.h"

static int pick_log(const char *name, const run *log, uint16_t buses, const char *to)
{
    run picked = {malloc(VIN_LOG_MAX), 0};
    if (out_of_memory(picked.bytes))
        return MISUSE;
    vin_answer a = vin_log_pick(log->bytes, log->length, buses, picked.bytes, VIN_LOG_MAX);
    int status = REFUSED;
    picked.length = a.bytes;
    if (a.number != VIN_DONE)
        say_listing_refused(name, log, a.number, a.place);
    else
        status = write_one(to ? to : "-", &picked);
    free(picked.bytes);
    return status;
}

static int run_pick(const arguments *given)
{
    const char *name = given->count > 1 ? given->files[1] : "-";
    uint16_t buses;
    run log;
    if (!read_buses("pick", given->files[0], &buses) || !read_file(name, VIN_LOG_MAX, &log))
        return MISUSE;
    int status = pick_log(name, &log, buses, given->values[OPT_OUT]);
    free(log.bytes);
    return status;
}

static const option_row options[] = {
    {OPT_OUT, OUTPUT, "LOG",
     "the log of the items picked; left out, standard output, unless that is a terminal"},
    {OPTIONS, FLAG, NULL, NULL},
};

const command pick_command = {
    .name = "pick",
    .usage = "BUSES [LOG] [-o LOG]",
    .about = "keep the items of some buses",
    .more =
        "\nBUSES are the codes 0 to 15, with commas and ranges, as in 2,5-7; all is every bus. LOG is by\n"
        "default standard input. The items on those buses are kept, in order and as they are.\n",
    .least = 1,
    .most = 2,
    .words = 1,
    .output = FILTERS,
    .options = options,
    .run = run_pick,
};
