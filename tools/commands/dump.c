#include <inttypes.h>
#include <stdio.h>
#include <stdlib.h>

#include "../buffer.h"
#include "../commands.h"
#include "../marks.h"
#include "../refusal.h"

/* Which lines are wanted. */
typedef struct {
    bool stored, no_fill, faults, some_group, some_bus, some_from, some_count;
    uint64_t group, bus, from, count;
} wanted;

static wanted wanted_of(const arguments *given)
{
    wanted w = {given->values[OPT_STORED], given->values[OPT_NO_FILL], given->values[OPT_FAULTS],
                given->values[OPT_GROUP],  given->values[OPT_BUS],     given->values[OPT_FROM],
                given->values[OPT_COUNT],  given->numbers[OPT_GROUP],  given->numbers[OPT_BUS],
                given->numbers[OPT_FROM],  given->numbers[OPT_COUNT]};
    return w;
}

static bool is_wanted(const wanted *w, const stored *s, const mark *m)
{
    return (!w->some_group || s->group == w->group)
           && (!w->some_bus || (s->slot == SLOT_DATA && s->bus == w->bus))
           && (!w->no_fill || s->slot != SLOT_DATA || !is_fill(s)) && (!w->faults || m->fault);
}

static void add_head(buffer *to)
{
    add(to, "%7s  %5s %5s %4s  %-8s %-6s  %3s %5s %4s  %-17s item\n", "place", "group", "track", "word",
        "offset", "word", "bus", "label", "info", "what");
}

static void add_word(buffer *to, const vin_plan *plan, const stored *s, const mark *m)
{
    char item[16] = "", time[32] = "", fault[16] = "";
    if (m->item)
        snprintf(item, sizeof item, "%" PRIu32 "%s", m->item, m->starts ? "" : "+");
    if (m->timed)
        snprintf(time, sizeof time, "%sat %" PRIu64, m->item ? "  " : "", m->time);
    if (m->fault)
        snprintf(fault, sizeof fault, "%s!%u ", m->item || m->timed ? "  " : "", m->fault);
    bool any = m->item || m->timed || m->fault;
    add(to, "%7" PRIu64 "  %5" PRIu64 " %5" PRIu32 " %4" PRIu32 "  0x%06" PRIX64 " %06" PRIX32, s->place,
        s->group, s->track, s->position, 3 * s->place, s->word);
    if (s->slot == SLOT_SYNC)
        add(to, "  %3s %5s %4s  ", "", "", "");
    else
        add(to, "  %3" PRIu32 " %5" PRIu32 " %4" PRIX32 "  ", s->bus, s->label, s->info);
    add(to, any ? "%-17s " : "%s", word_meaning(plan, s));
    add(to, "%s%s%s%s\n", item, time, fault, m->fault && m->why ? m->why : "");
}

/* In the order that is asked for: the n-th word of the capture. */
static uint64_t place_of(const vin_plan *plan, const wanted *w, uint64_t n)
{
    return w->stored ? n : dealt_place(plan, n / group_words(plan), n % group_words(plan));
}

static void add_words(buffer *to, const call *c, const mark *marks, const wanted *w)
{
    const vin_plan *plan = &c->plan.plan;
    uint64_t lines = 0;
    bool begun = !w->some_from;
    add_head(to);
    for (uint64_t n = 0; n < capture_words(&c->capture) && (!w->some_count || lines < w->count); n++) {
        stored s = stored_at(plan, &c->capture, place_of(plan, w, n));
        begun = begun || s.place == w->from;
        if (!begun || !is_wanted(w, &s, &marks[s.place]))
            continue;
        add_word(to, plan, &s, &marks[s.place]);
        lines++;
    }
}

/* Plan and length are as reading has them; whatever else is wrong is a mark. */
static bool can_be_dealt(const call *c)
{
    uint8_t none[1];
    vin_answer a = vin_plan_read(&c->plan.plan, c->capture.bytes, c->capture.length, none, 0, none, 0);
    if (a.number != VIN_PLAN && a.number != VIN_CAPTURE)
        return true;
    say_reading_refused(c, a);
    return false;
}

static bool has_numbers(const call *c, const wanted *w)
{
    uint64_t words = capture_words(&c->capture), groups = words / group_words(&c->plan.plan);
    if (w->some_bus && w->bus >= BUSES)
        complain("dump: --bus %" PRIu64 ": a bus is 0 to %d", w->bus, BUSES - 1);
    else if (w->some_group && w->group >= groups)
        complain("dump: --group %" PRIu64 ": the capture has %" PRIu64 " groups, counted from 0", w->group,
                 groups);
    else if (w->some_from && w->from >= words)
        complain("dump: --from %" PRIu64 ": the capture has %" PRIu64 " words, counted from 0", w->from,
                 words);
    else
        return true;
    return false;
}

static int dump_call(const call *c, const wanted *w, const char *to)
{
    buffer b = {{NULL, 0}, 0, false};
    if (!can_be_dealt(c))
        return REFUSED;
    if (!has_numbers(c, w))
        return MISUSE;
    mark *marks = mark_words(&c->plan.plan, &c->capture);
    if (out_of_memory(marks))
        return MISUSE;
    add_words(&b, c, marks, w);
    drop_marks(marks, capture_words(&c->capture));
    return write_buffer(&b, to);
}

static int run_dump(const arguments *given)
{
    call c = {0};
    c.capture_name = given->files[1];
    wanted w = wanted_of(given);
    int status = MISUSE;
    if (read_plan(given->files[0], &c.plan) && read_file(c.capture_name, VIN_CAPTURE_MAX, &c.capture))
        status = dump_call(&c, &w, given->values[OPT_OUT]);
    drop_call(&c);
    return status;
}

static const option_row options[] = {
    {OPT_STORED, FLAG, NULL, "words as they are stored; else as they are dealt, row by row over the tracks"},
    {OPT_FROM, NUMBER, "WORD", "begin at this place, as a refusal names it"},
    {OPT_COUNT, NUMBER, "N", "at most so many words"},
    {OPT_GROUP, NUMBER, "G", "only this group, counted from 0"},
    {OPT_BUS, NUMBER, "B", "only data slots that hold a word of this bus"},
    {OPT_NO_FILL, FLAG, NULL, "no fill"},
    {OPT_FAULTS, FLAG, NULL, "only words with a fault"},
    {OPT_OUT, OUTPUT, "TEXT", "the dump; left out, standard output"},
    {OPTIONS, FLAG, NULL, NULL},
};

const command dump_command = {
    .name = "dump",
    .usage = "PLAN CAPTURE [--from WORD] [--count N] [--group G] [--bus B] [--stored] [--no-fill] [--faults]",
    .about = "print a capture word by word",
    .more =
        "\nA line a word: its place, where that is, its byte offset, bus, label and information, what it\n"
        "is, the item it belongs to (1, then 1+ for its further words), the time it ends, and behind !\n"
        "the number of a refusal and why. All faults are marked, not only the first; open notices, 15, only\n"
        "where there is no other, and misplaced fill, 14, which check refuses, only where there is none.\n",
    .least = 2,
    .most = 2,
    .output = PRINTS,
    .options = options,
    .run = run_dump,
};
