#include "../shift.h"

#include <inttypes.h>
#include <stdio.h>
#include <stdlib.h>

#include "../commands.h"
#include "../items.h"
#include "../outputs.h"
#include "../refusal.h"

/* What is moved, and by how much. */
typedef struct {
    const char *log_name, *written; /* the shift as the user wrote it */
    int64_t by;
    run log, moved;
    times_file times; /* written over */
} shifting;

/* ==== Refusals ==== */

static const char *where_it_goes(const shifting *s)
{
    return s->by < 0 ? "would fall below zero" : "would reach 42949672960000, and times are below that";
}

static void say_tag_refused(const shifting *s, uint64_t bit)
{
    char why[160];
    spot at = spot_at(s->log.bytes, s->log.length, bit);
    snprintf(why, sizeof why, "%s on bus %u whose time %" PRIu64 " %s", kind_text(at.kind), at.bus, at.time,
             where_it_goes(s));
    say_at_item(s->log_name, &s->log, VIN_SHIFT, bit, why);
}

/* A time of the row that was too large before may have stayed so. */
static void say_time_refused(const shifting *s, uint64_t index)
{
    uint64_t time = time_at(s->times.bytes.bytes, index);
    bool below = s->by < 0 && time < 0 - (uint64_t)s->by;
    complain("%s:%zu: refused by 17 at time %" PRIu64 " (counted from 0): %s microseconds would %s",
             input_name(s->times.name).text, s->times.line_numbers[index], index,
             show(s->times.written[index]).text,
             below ? "fall below zero" : "not be below 42949672960000, as times are");
}

/* Which of the three it is: a call without times finds a tag, if it is one. */
static void say_shift_refused(const shifting *s, uint64_t place)
{
    vin_answer tags = vin_log_shift(s->log.bytes, s->log.length, s->by, NULL, 0, NULL, 0);
    if (s->by > VIN_SHIFT_MOST || s->by < -VIN_SHIFT_MOST)
        complain("%s: refused by 17 at 0: the shift is %s, and at most %" PRIi64
                 " microseconds (366 days) are moved either way",
                 input_name(s->log_name).text, show(s->written).text, VIN_SHIFT_MOST);
    else if (tags.number == VIN_SHIFT)
        say_tag_refused(s, place);
    else
        say_time_refused(s, place);
}

/* ==== The work ==== */

static int write_shifted(const shifting *s, const char *to, const char *times_to)
{
    output outputs[2] = {{to ? to : "-", s->moved.bytes, s->moved.length}, {times_to, NULL, 0}};
    run text = {NULL, 0};
    if (times_to && !times_text(s->times.bytes.bytes, s->times.bytes.length / VIN_TIME_BYTES, &text))
        return MISUSE;
    outputs[1].bytes = text.bytes;
    outputs[1].length = text.length;
    bool good = write_files(outputs, times_to ? 2 : 1);
    free(text.bytes);
    return good ? DONE : MISUSE;
}

static int shift_log(shifting *s, const char *to, const char *times_to)
{
    vin_answer a = vin_log_shift(s->log.bytes, s->log.length, s->by, s->times.bytes.bytes,
                                 s->times.bytes.length, s->moved.bytes, VIN_LOG_MAX);
    s->moved.length = a.bytes;
    if (a.number == VIN_DONE)
        return write_shifted(s, to, times_to);
    if (a.number == VIN_SHIFT)
        say_shift_refused(s, a.place);
    else
        say_listing_refused(s->log_name, &s->log, a.number, a.place);
    return REFUSED;
}

static int run_shift(const arguments *given)
{
    const char *times = given->values[OPT_TIMES], *times_to = given->values[OPT_TIMES_OUT];
    shifting s = {.log_name = given->count ? given->files[0] : "-", .written = given->values[OPT_BY]};
    int status = MISUSE;
    if (!s.written)
        complain("shift: --by is missing: how far, as in --by=-1.5s");
    else if (!times != !times_to)
        complain("shift: --times and --times-out go together");
    else if (read_shift("shift", s.written, &s.by) && read_file(s.log_name, VIN_LOG_MAX, &s.log)
             && (!times || read_times(times, &s.times))) {
        s.moved.bytes = malloc(VIN_LOG_MAX);
        if (!out_of_memory(s.moved.bytes))
            status = shift_log(&s, given->values[OPT_OUT], times_to);
    }
    free(s.log.bytes);
    free(s.moved.bytes);
    drop_times(&s.times);
    return status;
}

static const option_row options[] = {
    {OPT_BY, WORD, "SHIFT", "how far: microseconds, or a number with us, ms, s, min, h or d, as in -1.5s"},
    {OPT_OUT, OUTPUT, "LOG", "the moved log; left out, standard output, unless that is a terminal"},
    {OPT_TIMES, INPUT, "FILE", "frame times, to be moved as well"},
    {OPT_TIMES_OUT, OUTPUT, "FILE", "the moved frame times"},
    {OPTIONS, FLAG, NULL, NULL},
};

const command shift_command = {
    .name = "shift",
    .usage = "--by SHIFT [LOG] [-o LOG] [--times FILE --times-out FILE]",
    .about = "move all time tags and frame times",
    .more =
        "\nThe time tags of commands and ARINC words, and the frame times, are moved by SHIFT, at most 366\n"
        "days forward or back; response times stay. LOG is by default standard input.\n",
    .least = 0,
    .most = 1,
    .output = FILTERS,
    .options = options,
    .run = run_shift,
};
