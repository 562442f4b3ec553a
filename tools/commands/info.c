#include <inttypes.h>
#include <stdlib.h>

#include "../../include/vinculampe.h"
#include "../buffer.h"
#include "../capture.h"
#include "../commands.h"
#include "../lister.h"
#include "../listing.h"
#include "../reading.h"

/* What the items of a log add up to. */
typedef struct {
    uint64_t counts[BUSES][KINDS], items, words;
    uint64_t tags, backward, first, last; /* time tags; steps back in time; the first tag and the last */
} tally;

static void count_item(void *with, const item *i, size_t number, size_t bit)
{
    tally *t = with;
    (void)number;
    (void)bit;
    t->counts[i->bus][i->kind]++;
    t->items++;
    t->words += item_words(i);
    if (!i->timed || i->kind == STATUS)
        return;
    if (t->tags == 0)
        t->first = i->time;
    else
        t->backward += i->time < t->last;
    t->last = i->time;
    t->tags++;
}

/* Lists the log, since that is proved, and counts the lines. */
static int count_log(const char *name, const run *log, tally *t)
{
    run text;
    int status = list_log(name, log, &text);
    if (status != DONE)
        return status;
    *t = (tally){0};
    bool good = each_item(&text, count_item, t);
    free(text.bytes);
    return good ? DONE : MISUSE;
}

/* "first to last, so much apart" */
static void add_span(buffer *to, uint64_t first, uint64_t last)
{
    bool back = last < first;
    uint64_t apart = back ? first - last : last - first;
    add(to, "%" PRIu64 " to %" PRIu64 ", %s%" PRIu64 ".%06" PRIu64 " s", first, last, back ? "-" : "",
        apart / 1000000, apart % 1000000);
}

static void add_items(buffer *to, const tally *t, size_t log_bytes)
{
    static const char *const names[KINDS] = {"",          "command",   "status word",
                                             "data word", "bus error", "ARINC word",
                                             "notice",    "user word", "overflow mark"};
    add(to, "log          %zu byte%s, %" PRIu64 " item%s\n", log_bytes, plural(log_bytes), t->items,
        plural(t->items));
    for (unsigned bus = 0; bus < BUSES; bus++) {
        bool any = false;
        for (unsigned kind = COMMAND; kind < KINDS; kind++) {
            uint64_t n = t->counts[bus][kind];
            if (n == 0)
                continue;
            if (any)
                add(to, ", ");
            else
                add(to, "bus %-9u", bus);
            add(to, "%" PRIu64 " %s%s", n, names[kind], plural(n));
            any = true;
        }
        if (any)
            add(to, "\n");
    }
    if (t->tags == 0) {
        add(to, "time tags    none\n");
        return;
    }
    add(to, "time tags    %" PRIu64 ": ", t->tags);
    add_span(to, t->first, t->last);
    add(to, "; steps back: %" PRIu64 "\n", t->backward);
}

static void add_groups(buffer *to, const reading *r, const tally *t)
{
    const vin_plan *plan = &r->call.plan.plan;
    size_t bytes = r->call.capture.length, groups = bytes / VIN_GROUP_BYTES(plan->words, plan->tracks);
    uint64_t slots = groups * VIN_GROUP_SLOTS(plan->words, plan->tracks, plan->frame_time, plan->crc);
    uint64_t fill = slots - t->words, share = slots ? (1000 * fill + slots / 2) / slots : 0;
    add(to, "groups       %zu of %" PRIu32 " frame%s of %" PRIu32 " words, %zu bytes\n", groups, plan->tracks,
        plural(plan->tracks), plan->words, bytes);
    if (!plan->frame_time)
        add(to, "frame times  none in the plan\n");
    else if (r->answer.times > 0) {
        add(to, "frame times  %" PRIu64 ": ", r->answer.times);
        add_span(to, time_at(r->times, 0), time_at(r->times, r->answer.times - 1));
        add(to, "\n");
    }
    add(to,
        "data slots   %" PRIu64 ": %" PRIu64 " data word%s, %" PRIu64 " fill, %" PRIu64 ".%" PRIu64 " %%\n",
        slots, t->words, plural(t->words), fill, share / 10, share % 10);
}

static int info_capture(const arguments *given)
{
    reading r;
    tally t;
    buffer b = {{NULL, 0}, 0, false};
    int status = read_capture(given->files[0], given->files[1], vin_plan_read, &r);
    run log = {r.log, r.answer.bytes};
    if (status == DONE)
        status = count_log(given->files[1], &log, &t);
    if (status == DONE) {
        add_groups(&b, &r, &t);
        add_items(&b, &t, log.length);
        status = write_buffer(&b, given->values[OPT_OUT]);
        say_notes(&r);
    }
    drop_reading(&r);
    return status;
}

static int run_info(const arguments *given)
{
    run log;
    tally t;
    buffer b = {{NULL, 0}, 0, false};
    if (given->count == 2)
        return info_capture(given);
    if (!read_file(given->files[0], VIN_LOG_MAX, &log))
        return MISUSE;
    int status = count_log(given->files[0], &log, &t);
    if (status == DONE) {
        add_items(&b, &t, log.length);
        status = write_buffer(&b, given->values[OPT_OUT]);
    }
    free(log.bytes);
    return status;
}

static const option_row options[] = {
    {OPT_OUT, OUTPUT, "TEXT", "what is counted; left out, standard output"},
    {OPTIONS, FLAG, NULL, NULL},
};

const command info_command = {
    .name = "info",
    .usage = "PLAN CAPTURE | LOG",
    .about = "count what a capture or a log holds",
    .more = "\nOf a capture: groups, the first and last frame time, data words and the share of fill. Of its "
            "log,\n"
            "or of a log alone: items by bus and kind, the first and last time tag, and how often tags step "
            "back.\n",
    .least = 1,
    .most = 2,
    .output = PRINTS,
    .options = options,
    .run = run_info,
};
