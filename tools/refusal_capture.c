/* Refusals of captures: 6 and 8 to 15. */
#include "refusal.h"

#include <inttypes.h>
#include <stdio.h>

#include "hints.h"
#include "walk.h"

static void bad_frame_time(const stored *s, char *why)
{
    static const char *const names[] = {"high", "low", "micro"};
    unsigned which = s->slot >= SLOT_HIGH && s->slot <= SLOT_MICRO ? s->slot - SLOT_HIGH : FRAME_TIME_WORDS;
    if (which == FRAME_TIME_WORDS)
        snprintf(why, WHY_MOST, "%s", vin_text(VIN_FRAME_TIME));
    else if (s->bus != 0 || s->label != LABEL_HIGH - which)
        snprintf(why, WHY_MOST,
                 "it has bus %" PRIu32 " and label %" PRIu32
                 "; the frame time's %s word has bus 0 and label %u",
                 s->bus, s->label, names[which], LABEL_HIGH - which);
    else
        snprintf(why, WHY_MOST, "the frame time's micro is %" PRIu32 "; it must be below 10000", s->info);
}

/* The answer's second place is where the item that broke begins: from there on its words are gone through up
 * to the bad word, and it is said what that breaks; or that the capture's end cuts the item. (If no item was
 * unfinished the second place is the bad word, which then breaks nothing and starts nothing.) */
static void bad_data_word(const vin_plan *plan, const run *capture, const vin_answer *a, char *why)
{
    walk w = {AWAIT_NOTHING, {0}, 0, 0, 0};
    stored first = stored_at(plan, capture, a->second);
    uint64_t groups = capture_words(capture) / group_words(plan);
    for (uint64_t group = first.group; group < groups; group++)
        for (uint64_t n = group == first.group ? dealt_number(plan, &first) : plan->tracks;
             n < group_words(plan); n++) {
            stored s = stored_at(plan, capture, dealt_place(plan, group, n));
            walk before = w;
            if (s.slot == SLOT_DATA && walk_word(&w, plan, &s) == STEP_BREAKS) {
                tell_break(plan, &before, &s, why);
                return;
            }
        }
    tell_cut(plan, &w, why);
}

/* The next data word behind a word, in dealt order; false if there is none. */
static bool next_data(const vin_plan *plan, const run *capture, const stored *from, stored *next)
{
    uint64_t first = dealt_number(plan, from) + 1;
    for (uint64_t group = from->group; group < capture_words(capture) / group_words(plan); group++)
        for (uint64_t n = group == from->group ? first : plan->tracks; n < group_words(plan); n++) {
            *next = stored_at(plan, capture, dealt_place(plan, group, n));
            if (next->slot == SLOT_DATA && !is_fill(next))
                return true;
        }
    return false;
}

static void bad_fill(const vin_plan *plan, const run *capture, const stored *s, char *why)
{
    stored next;
    if (s->bus != plan->fill_bus)
        snprintf(why, WHY_MOST, "misplaced fill: its bus is %" PRIu32 " and not %" PRIu32, s->bus,
                 plan->fill_bus);
    else if (next_data(plan, capture, s, &next))
        snprintf(why, WHY_MOST, "misplaced fill: data follows it, %06" PRIX32 " at %s", next.word,
                 tell_place(&next).text);
    else
        snprintf(why, WHY_MOST, "misplaced fill: neither its group nor a later one has a data word");
}

void tell_bad_word(const call *c, const stored *s, const vin_answer *a, char *why)
{
    const vin_plan *plan = &c->plan.plan;
    switch (a->number) {
    case VIN_SYNC: snprintf(why, WHY_MOST, "the sync word FAF320 belongs here"); break;
    case VIN_PARITY:
        snprintf(why, WHY_MOST, "it has %u ones, an even number, and the plan has parity",
                 count_ones(s->word));
        break;
    case VIN_CRC:
        snprintf(why, WHY_MOST, "the CRC word of the words before it in its frame is %06" PRIX32,
                 frame_crc(plan, &c->capture, s->place + 1 - plan->words));
        break;
    case VIN_FRAME_TIME: bad_frame_time(s, why); break;
    case VIN_DATA_WORD: bad_data_word(plan, &c->capture, a, why); break;
    case VIN_FILL: bad_fill(plan, &c->capture, s, why); break;
    case VIN_NOTICE: tell_open(s->bus, why); break;
    default: snprintf(why, WHY_MOST, "%s", vin_text(a->number));
    }
}

static void say_word_refused(const call *c, vin_answer a)
{
    char why[WHY_MOST];
    if (a.place >= capture_words(&c->capture) || a.second >= capture_words(&c->capture)) {
        say_plainly(c->capture_name, a);
        return;
    }
    stored s = stored_at(&c->plan.plan, &c->capture, a.place);
    tell_bad_word(c, &s, &a, why);
    complain("%s: refused by %" PRIu32 " at %s: %06" PRIX32 ": %s", input_name(c->capture_name).text,
             a.number, tell_place(&s).text, s.word, why);
    if (a.number == VIN_SYNC || a.number == VIN_CRC || a.number == VIN_DATA_WORD || a.number == VIN_FILL)
        say_hints("hint", c->capture_name, &c->plan.plan, &c->capture);
}

/* Of a capture that is too long only the first bytes were read; a regular file has its length. */
static void say_too_long(const call *c, size_t group)
{
    uint64_t size = file_size(c->capture_name);
    shown_name name = input_name(c->capture_name);
    if (size > VIN_CAPTURE_MAX)
        complain("%s: refused by 8 at %" PRIu64 ": the capture has %" PRIu64
                 " bytes, and at most %d are read",
                 name.text, size, size, VIN_CAPTURE_MAX);
    else
        complain("%s: refused by 8 at %zu: the capture has more than %d bytes", name.text, c->capture.length,
                 VIN_CAPTURE_MAX);
    complain("%s: hint: vin follow reads a capture of any length; or cut it into pieces of whole groups "
             "(split -b %zu): an item that lies across a cut is lost",
             name.text, VIN_CAPTURE_MAX / group * group);
}

static void say_length_refused(const call *c)
{
    const vin_plan *plan = &c->plan.plan;
    size_t length = c->capture.length, group = VIN_GROUP_BYTES(plan->words, plan->tracks);
    if (length > VIN_CAPTURE_MAX) {
        say_too_long(c, group);
        return;
    }
    complain("%s: refused by 8 at %zu: %zu bytes are not whole groups of %zu bytes; left over: %zu",
             input_name(c->capture_name).text, length, length, group, length % group);
    say_hints("hint", c->capture_name, plan, &c->capture);
}

void say_reading_refused(const call *c, vin_answer a)
{
    switch (a.number) {
    case VIN_PLAN: say_illegal(&c->plan); break;
    case VIN_CAPTURE: say_length_refused(c); break;
    case VIN_ROOM:
        complain("%s: refused by 6 at %" PRIu64 ": the log would have %" PRIu64
                 " bytes, and a log has at most %d",
                 input_name(c->capture_name).text, a.place, a.place, VIN_LOG_MAX);
        break;
    default: say_word_refused(c, a);
    }
}
