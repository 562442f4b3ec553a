#include "walk.h"

#include <inttypes.h>
#include <stdio.h>

enum { FINE_LIMIT = 10000 }; /* of a micro and of a response */

bool is_unfinished(const walk *w)
{
    return w->awaits > AWAIT_TAG;
}

uint64_t walk_time(const walk *w, uint32_t micro)
{
    return UINT64_C(10000) * (((uint64_t)w->high << 16) + w->low) + micro;
}

/* ==== One step ==== */

static bool is_pair(uint32_t info)
{
    unsigned high = info >> 12, low = info >> 8 & 15;
    return high >= 9 && high % 2 == 1 && low == high - 1;
}

static enum step begin(walk *w, const stored *s, enum awaited awaits)
{
    w->items++;
    w->first = *s;
    w->awaits = awaits;
    return STEP_STARTS;
}

/* Nothing is unfinished: what does the word start? */
static enum step start(walk *w, const vin_plan *plan, const stored *s)
{
    unsigned kind = plan->kinds[s->bus];
    w->awaits = AWAIT_NOTHING;
    if (kind == VIN_KIND_UNUSED || s->label == LABEL_FILL)
        return STEP_BREAKS;
    if (s->label <= LABEL_USER_3)
        return begin(w, s, AWAIT_NOTHING);
    if (s->label >= 8 && kind == VIN_KIND_1553)
        return begin(w, s, s->label % 4 == 3 ? AWAIT_TAG : AWAIT_NOTHING);
    if (s->label >= 8 && s->label % 2 == 1)
        return begin(w, s, AWAIT_LOW_SYLLABLE);
    if (s->label == LABEL_4 && kind == VIN_KIND_1553 && s->info < FINE_LIMIT)
        return begin(w, s, AWAIT_STATUS);
    if (s->label == LABEL_4 && kind == VIN_KIND_ARINC && is_pair(s->info))
        return begin(w, s, AWAIT_NOTHING);
    return STEP_BREAKS;
}

/* Is this the label that is awaited? */
static bool is_awaited(const walk *w, unsigned label)
{
    switch (w->awaits) {
    case AWAIT_TAG: return label == LABEL_HIGH;
    case AWAIT_STATUS: return label == 14 || label == 10;
    case AWAIT_LOW_SYLLABLE: return label == w->first.label - 1;
    case AWAIT_LOW: return label == LABEL_LOW;
    case AWAIT_MICRO: return label == LABEL_MICRO;
    default: return false;
    }
}

/* The word is the awaited one: what comes next? */
static enum step go_on(walk *w, const stored *s)
{
    switch (w->awaits) {
    case AWAIT_TAG:
        w->high = s->info;
        w->awaits = AWAIT_LOW;
        return STEP_GOES_ON;
    case AWAIT_LOW_SYLLABLE: w->awaits = AWAIT_TAG; return STEP_GOES_ON;
    case AWAIT_LOW:
        w->low = s->info;
        w->awaits = AWAIT_MICRO;
        return STEP_GOES_ON;
    default: w->awaits = AWAIT_NOTHING; return STEP_ENDS;
    }
}

enum step walk_word(walk *w, const vin_plan *plan, const stored *s)
{
    if (is_fill(s))
        return STEP_FILL;
    bool fits = plan->kinds[s->bus] != VIN_KIND_UNUSED && s->bus == w->first.bus && is_awaited(w, s->label);
    if (fits && w->awaits == AWAIT_MICRO && s->info >= FINE_LIMIT)
        fits = false;
    if (fits)
        return go_on(w, s);
    if (!is_unfinished(w))
        return start(w, plan, s);
    w->awaits = AWAIT_NOTHING;
    return STEP_BREAKS;
}

/* ==== In words ==== */

/* "the time of the command A at word 1 (..)" and the like, and what it waits for. */
static void tell_waiting(const vin_plan *plan, const walk *w, char *text, size_t room)
{
    const char *first = label_name(plan->kinds[w->first.bus], w->first.label);
    place_text at = tell_place(&w->first);
    bool arinc = plan->kinds[w->first.bus] == VIN_KIND_ARINC;
    switch (w->awaits) {
    case AWAIT_STATUS:
        snprintf(text, room, "a response time at %s waits for its status on bus %u", at.text, w->first.bus);
        break;
    case AWAIT_LOW_SYLLABLE:
        snprintf(text, room, "the high syllable of channel %u at %s waits for its low one on bus %u",
                 channel_of(w->first.label), at.text, w->first.bus);
        break;
    default:
        snprintf(text, room, "the time of the %s at %s waits for its %s word on bus %u",
                 arinc ? "ARINC word" : first, at.text, w->awaits == AWAIT_LOW ? "low" : "micro",
                 w->first.bus);
    }
}

/* Inside an item. */
static void tell_inside(const vin_plan *plan, const walk *w, const stored *s, char *why)
{
    const char *name = label_name(plan->kinds[s->bus], s->label);
    place_text at = tell_place(&w->first);
    char waiting[WHY_MOST - 40];
    if (w->awaits == AWAIT_MICRO && s->bus == w->first.bus && s->label == LABEL_MICRO)
        snprintf(why, WHY_MOST, "micro is %u: it must be below 10000; it would end the time of the %s at %s",
                 s->info, plan->kinds[s->bus] == VIN_KIND_ARINC ? "ARINC word" : "command", at.text);
    else if (w->awaits == AWAIT_LOW_SYLLABLE && s->bus == w->first.bus && s->label >= 8 && s->label % 2 == 0)
        snprintf(why, WHY_MOST, "low syllable of channel %u behind the high syllable of channel %u at %s",
                 channel_of(s->label), channel_of(w->first.label), at.text);
    else {
        tell_waiting(plan, w, waiting, sizeof waiting);
        snprintf(why, WHY_MOST, "%s on bus %u: %s", name, s->bus, waiting);
    }
}

/* Where an item could start. */
static void tell_no_start(const vin_plan *plan, const stored *s, char *why)
{
    bool arinc = plan->kinds[s->bus] == VIN_KIND_ARINC;
    if (s->label == LABEL_4 && arinc)
        snprintf(why, WHY_MOST, "error notice on bus %u: its labels %X and %X are not one channel's pair",
                 s->bus, s->info >> 12, s->info >> 8 & 15);
    else if (s->label == LABEL_4)
        snprintf(why, WHY_MOST, "response is %u: it must be below 10000", s->info);
    else if (s->label >= 8)
        snprintf(why, WHY_MOST, "low syllable of channel %u on bus %u: no high one stands before it",
                 channel_of(s->label), s->bus);
    else if (s->label == LABEL_HIGH)
        snprintf(why, WHY_MOST, "time high on bus %u: no %s of that bus stands before it", s->bus,
                 arinc ? "ARINC word" : "command");
    else
        snprintf(why, WHY_MOST, "%s on bus %u: no time %s stands before it",
                 label_name(VIN_KIND_1553, s->label), s->bus, s->label == LABEL_LOW ? "high" : "low");
}

void tell_break(const vin_plan *plan, const walk *before, const stored *s, char why[WHY_MOST])
{
    char waiting[WHY_MOST - 80] = "";
    bool inside = is_unfinished(before);
    if (inside)
        tell_waiting(plan, before, waiting, sizeof waiting);
    if (s->label == LABEL_FILL)
        snprintf(why, WHY_MOST, "it has label 1, fill, and fill is AAAA%s%s", inside ? "; " : "", waiting);
    else if (plan->kinds[s->bus] == VIN_KIND_UNUSED)
        snprintf(why, WHY_MOST, "it is on bus %u, which the plan does not use%s%s", s->bus,
                 inside ? "; " : "", waiting);
    else if (inside)
        tell_inside(plan, before, s, why);
    else
        tell_no_start(plan, s, why);
}

void tell_cut(const vin_plan *plan, const walk *at_end, char why[WHY_MOST])
{
    const stored *s = &at_end->first;
    const char *ends = s->track == 0 ? "the words end" : "the capture ends";
    bool arinc = plan->kinds[s->bus] == VIN_KIND_ARINC;
    if (at_end->awaits == AWAIT_STATUS)
        snprintf(why, WHY_MOST, "response time on bus %u: %s before its status", s->bus, ends);
    else if (at_end->awaits == AWAIT_LOW_SYLLABLE)
        snprintf(why, WHY_MOST, "high syllable of channel %u on bus %u: %s before its low one",
                 channel_of(s->label), s->bus, ends);
    else
        snprintf(why, WHY_MOST, "%s on bus %u: %s before the %s word of its time",
                 arinc ? "ARINC word" : label_name(VIN_KIND_1553, s->label), s->bus, ends,
                 at_end->awaits == AWAIT_LOW ? "low" : "micro");
}

void tell_open(uint32_t bus, char why[WHY_MOST])
{
    snprintf(
        why, WHY_MOST,
        "error notice on bus %u without its ARINC word: the channel's next notice, or the end, comes first",
        bus);
}
