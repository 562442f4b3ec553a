#include <inttypes.h>
#include <stdlib.h>
#include <string.h>

#include "../commands.h"
#include "../outputs.h"
#include "../refusal.h"

/* Is it this log that has the fault? Picking none of its items says so. */
static bool is_faulty(const run *log)
{
    uint8_t end;
    return vin_log_pick(log->bytes, log->length, 0, &end, 1).number != VIN_DONE;
}

/* The library's answer does not say which of two logs it refuses. */
static void say_refused(const char *first, const run *before, const char *second, const run *log,
                        vin_answer a)
{
    if (a.number == VIN_ROOM)
        complain("%s: refused by %" PRIu32 " at %" PRIu64 ": joined with it the log would have %" PRIu64
                 " bytes, and a log has at most %d",
                 input_name(second).text, a.number, a.place, a.place, VIN_LOG_MAX);
    else if (is_faulty(before))
        say_listing_refused(first, before, a.number, a.place);
    else
        say_listing_refused(second, log, a.number, a.place);
}

/* Joins the log of a name to those before it, whose first has the other name. */
static int join_next(const char *first, run *joined, const char *name)
{
    run log, longer = {malloc(VIN_LOG_MAX), 0};
    int status = MISUSE;
    if (!out_of_memory(longer.bytes) && read_file(name, VIN_LOG_MAX, &log)) {
        vin_answer a =
            vin_log_join(joined->bytes, joined->length, log.bytes, log.length, longer.bytes, VIN_LOG_MAX);
        status = a.number == VIN_DONE ? DONE : REFUSED;
        if (status == REFUSED)
            say_refused(first, joined, name, &log, a);
        memcpy(joined->bytes, longer.bytes, a.bytes); /* which has room for the longest log */
        joined->length = a.number == VIN_DONE ? a.bytes : joined->length;
        free(log.bytes);
    }
    free(longer.bytes);
    return status;
}

static int run_join(const arguments *given)
{
    run joined;
    const char *first = given->files[0], *to = given->values[OPT_OUT];
    if (!read_file(first, VIN_LOG_MAX, &joined))
        return MISUSE;
    int status = DONE;
    for (size_t n = 1; n < given->count && status == DONE; n++)
        status = join_next(first, &joined, given->files[n]);
    if (status == DONE)
        status = write_one(to ? to : "-", &joined);
    free(joined.bytes);
    return status;
}

static const option_row options[] = {
    {OPT_OUT, OUTPUT, "LOG", "the joined log; left out, standard output, unless that is a terminal"},
    {OPTIONS, FLAG, NULL, NULL},
};

const command join_command = {
    .name = "join",
    .usage = "LOG LOG.. [-o LOG]",
    .about = "put logs one behind the other",
    .more =
        "\nThe first log's items, then the second's, and so on. The joined log has at most 32768 bytes.\n",
    .least = 2,
    .most = FILES_MOST,
    .output = FILTERS,
    .options = options,
    .run = run_join,
};
