#include <inttypes.h>
#include <stdarg.h>
#include <stdio.h>
#include <stdlib.h>

#include "../buffer.h"
#include "../commands.h"
#include "../events.h"
#include "../lister.h"
#include "../listing.h"
#include "../outputs.h"
#include "../refusal.h"

/* What is replayed. */
typedef struct {
    const char *log_name, *events_name; /* of events that no file has: the log's */
    run log;
    uint64_t items; /* of the log */
    events events;
    uint32_t capacity, slots;
} replaying;

/* ==== What is counted ==== */

/* The items of a log, its marks, and the losses that they tell of. */
typedef struct {
    uint64_t items, marks, marked;
} tally;

static void count_item(void *with, const item *i, size_t number, size_t bit)
{
    tally *t = with;
    (void)number;
    (void)bit;
    t->items++;
    if (i->kind == OVERFLOW_MARK) {
        t->marks++;
        t->marked += i->word;
    }
}

/* Lists the log, since that is proved, and counts the lines. */
static int count_log(const char *name, const run *log, tally *t)
{
    run text;
    *t = (tally){0, 0, 0};
    int status = list_log(name, log, &text);
    if (status != DONE)
        return status;
    bool good = each_item(&text, count_item, t);
    free(text.bytes);
    return good ? DONE : MISUSE;
}

/* ==== Refusals ==== */

static void say_wrong(const char *name, const char *format, ...) __attribute__((format(printf, 2, 3)));

static void say_wrong(const char *name, const char *format, ...)
{
    char why[200];
    va_list values;
    va_start(values, format);
    vsnprintf(why, sizeof why, format, values);
    va_end(values);
    complain("%s: refused by %d at 0: %s", input_name(name).text, VIN_REPLAY, why);
}

static void say_wrong_event(const replaying *r)
{
    size_t n = 0;
    while (n < r->events.row.length && r->events.row.bytes[n] <= VIN_GROUP_LEAVES)
        n++;
    if (n < r->events.row.length)
        say_wrong(r->events_name,
                  "event %zu is %u; an event is %d, the next item arrives, or %d, a group leaves", n + 1,
                  r->events.row.bytes[n], VIN_ITEM_ARRIVES, VIN_GROUP_LEAVES);
}

/* Everything that is wrong, since one place stands for all of it. */
static void say_limits(const replaying *r)
{
    if (r->capacity < VIN_BUFFER_LEAST || r->capacity > VIN_BUFFER_MOST)
        say_wrong(r->log_name, "the capacity is %" PRIu32 " words: a buffer has %d to %d", r->capacity,
                  VIN_BUFFER_LEAST, VIN_BUFFER_MOST);
    if (r->slots < 1 || r->slots > VIN_SLOTS_MOST)
        say_wrong(r->log_name, "the slots are %" PRIu32 ": a group has 1 to %d", r->slots, VIN_SLOTS_MOST);
    if (r->events.count > VIN_EVENTS_MAX)
        say_wrong(r->events_name, "there are %" PRIu64 " events, and at most %d are replayed",
                  r->events.count, VIN_EVENTS_MAX);
    else
        say_wrong_event(r);
    if (r->events.arrivals > r->items)
        say_wrong(r->events_name, "%" PRIu64 " item%s arrive, and the log has %" PRIu64, r->events.arrivals,
                  plural(r->events.arrivals), r->items);
}

static bool has_mark_at(const run *log, uint64_t bit)
{
    return spot_at(log->bytes, log->length, bit).kind == OVERFLOW_MARK;
}

static void say_refused(const replaying *r, const vin_replayed *a)
{
    if (a->number == VIN_ROOM)
        complain("%s: refused by %" PRIu32 " at %" PRIu64 ": what was stored would have %" PRIu64
                 " bytes with its marks, and a log has at most %d",
                 input_name(r->log_name).text, a->number, a->place, a->place, VIN_LOG_MAX);
    else if (a->number != VIN_REPLAY)
        say_listing_refused(r->log_name, &r->log, a->number, a->place);
    else if (has_mark_at(&r->log, a->place))
        say_at_item(r->log_name, &r->log, a->number, a->place,
                    "an overflow mark, and a log that is replayed has none");
    else
        say_limits(r);
}

/* ==== The call ==== */

static vin_replayed replay_by(const replaying *r, uint32_t capacity, uint8_t *out)
{
    return vin_log_replay(r->log.bytes, r->log.length, r->events.row.bytes, r->events.row.length, capacity,
                          r->slots, out, VIN_LOG_MAX);
}

static int say_summary(const replaying *r, const vin_replayed *a, const run *stored)
{
    tally t;
    buffer b = {{NULL, 0}, 0, false};
    uint64_t arrived = r->events.arrivals;
    int status = count_log("what was stored", stored, &t);
    if (status != DONE)
        return status;
    add(&b, "%" PRIu64 " item%s arrived: ", arrived, plural(arrived));
    if (a->lost == 0)
        add(&b, "none lost");
    else
        add(&b, "%" PRIu64 " stored, %" PRIu64 " lost (%" PRIu64 " mark%s of %" PRIu64 ")", t.items - t.marks,
            a->lost, t.marks, t.marks == 1 ? " tells" : "s tell", t.marked);
    add(&b, "; words sent: %" PRIu64 ", held: %" PRIu64, a->sent, a->held);
    if (arrived < r->items)
        add(&b, "; did not arrive: %" PRIu64 " item%s", r->items - arrived, plural(r->items - arrived));
    if (!b.failed)
        complain("%s: %.*s", input_name(r->log_name).text, (int)b.text.length, (const char *)b.text.bytes);
    free(b.text.bytes);
    return DONE;
}

static int write_replayed(const replaying *r, uint8_t *out, const arguments *given)
{
    const char *to = given->values[OPT_OUT];
    vin_replayed a = replay_by(r, r->capacity, out);
    run stored = {out, a.bytes};
    if (a.number != VIN_DONE) {
        say_refused(r, &a);
        return REFUSED;
    }
    int status = write_one(to ? to : "-", &stored);
    if (status == DONE)
        status = say_summary(r, &a, &stored);
    return status == DONE && given->values[OPT_STRICT] && a.lost > 0 ? REFUSED : status;
}

/* A buffer that loses nothing holds at every moment what each larger one does, which then loses nothing
 * either: so the least is found by halves. */
static int print_least(replaying *r, uint8_t *out)
{
    uint32_t least = VIN_BUFFER_LEAST, most = VIN_BUFFER_MOST;
    r->capacity = most;
    vin_replayed a = replay_by(r, most, out);
    if (a.number != VIN_DONE) {
        say_refused(r, &a);
        return REFUSED;
    }
    if (a.lost > 0) {
        complain("%s: no capacity is large enough: of %d words, the most, %" PRIu64 " item%s lost",
                 input_name(r->log_name).text, VIN_BUFFER_MOST, a.lost, a.lost == 1 ? " is" : "s are");
        return REFUSED;
    }
    while (least < most) {
        uint32_t middle = (least + most) / 2;
        if (replay_by(r, middle, out).lost == 0)
            most = middle;
        else
            least = middle + 1;
    }
    printf("%" PRIu32 "\n", least);
    return DONE;
}

/* ==== The command ==== */

static bool is_one(const arguments *given, enum option_id one, enum option_id other)
{
    if (!given->values[one] == !given->values[other])
        complain("replay: %s %s or %s",
                 given->values[one] ? "only one is taken:" : "one is needed:", option_name(one),
                 option_name(other));
    return !given->values[one] != !given->values[other];
}

static uint32_t number_of(const arguments *given, enum option_id id)
{
    return given->numbers[id] < UINT32_MAX ? (uint32_t)given->numbers[id] : UINT32_MAX;
}

static int take_slots(const arguments *given, replaying *r)
{
    plan_file p;
    if (!given->values[OPT_PLAN]) {
        r->slots = number_of(given, OPT_SLOTS);
        return DONE;
    }
    if (!read_plan(given->values[OPT_PLAN], &p))
        return MISUSE;
    if (!plan_is_legal(&p.plan)) {
        say_illegal(&p);
        return REFUSED;
    }
    r->slots = (uint32_t)VIN_GROUP_SLOTS(p.plan.words, p.plan.tracks, p.plan.frame_time, p.plan.crc);
    return DONE;
}

static bool take_events(const arguments *given, replaying *r)
{
    if (given->values[OPT_EVERY])
        return events_every(given->numbers[OPT_EVERY], r->items, &r->events);
    r->events_name = given->values[OPT_EVENTS];
    return read_events(r->events_name, &r->events);
}

static int replay_log(const arguments *given, replaying *r)
{
    tally t;
    int status = count_log(r->log_name, &r->log, &t);
    if (status != DONE)
        return status;
    r->items = t.items;
    status = take_slots(given, r);
    if (status != DONE)
        return status;
    uint8_t *out = malloc(VIN_LOG_MAX);
    status = MISUSE;
    if (!out_of_memory(out) && take_events(given, r))
        status = given->values[OPT_LEAST] ? print_least(r, out) : write_replayed(r, out, given);
    drop_events(&r->events);
    free(out);
    return status;
}

static int run_replay(const arguments *given)
{
    const char *name = given->count ? given->files[0] : "-";
    replaying r = {name, name, {NULL, 0}, 0, {{NULL, 0}, 0, 0}, number_of(given, OPT_CAPACITY), 0};
    if (!is_one(given, OPT_CAPACITY, OPT_LEAST) || !is_one(given, OPT_EVENTS, OPT_EVERY)
        || !is_one(given, OPT_SLOTS, OPT_PLAN))
        return MISUSE;
    if (given->values[OPT_LEAST] && given->values[OPT_OUT]) {
        complain("replay: --least prints a number and writes no log");
        return MISUSE;
    }
    if (given->values[OPT_EVERY] && given->numbers[OPT_EVERY] == 0) {
        complain("replay: --every 0: a group leaves after each 1 item or more");
        return MISUSE;
    }
    if (!read_file(name, VIN_LOG_MAX, &r.log))
        return MISUSE;
    int status = replay_log(given, &r);
    free(r.log.bytes);
    return status;
}

static const option_row options[] = {
    {OPT_CAPACITY, NUMBER, "N", "the buffer has N words, 8 to 4096"},
    {OPT_LEAST, FLAG, NULL, "print the least capacity by which no item is lost"},
    {OPT_EVENTS, INPUT, "FILE", "what happens, in order: lines as 12 items and 1 group"},
    {OPT_EVERY, NUMBER, "K", "all items arrive, and a group leaves after each K"},
    {OPT_SLOTS, NUMBER, "S", "a group takes S words, 1 to 2048"},
    {OPT_PLAN, INPUT, "PLAN", "a group takes as many as a group of this plan has slots for data"},
    {OPT_OUT, OUTPUT, "LOG",
     "the log of what was stored; left out, standard output, unless that is a terminal"},
    {OPT_STRICT, FLAG, NULL, "status 1 if an item was lost"},
    {OPTIONS, FLAG, NULL, NULL},
};

const command replay_command = {
    .name = "replay",
    .usage = "[LOG] (--capacity N | --least) (--events FILE | --every K) (--slots S | --plan PLAN) [-o LOG] "
             "[--strict]",
    .about = "say whether a front-end buffer is large enough, and what it loses",
    .more = "\nLOG, by default standard input, arrives item by item, and groups leave. An item that does not "
            "fit\n"
            "into the free room is lost whole; the next that fits has an overflow mark before it, with the "
            "bus of\n"
            "the first lost item and the number lost. What was stored is a log, marks included; what was "
            "lost is\n"
            "said on standard error.\n",
    .least = 0,
    .most = 1,
    .output = FILTERS,
    .options = options,
    .run = run_replay,
};
