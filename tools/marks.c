#define _POSIX_C_SOURCE 200809L
#include "marks.h"

#include <inttypes.h>
#include <stdarg.h>
#include <stdio.h>
#include <stdlib.h>
#include <string.h>

static void set_fault(mark *m, unsigned number, const char *format, ...)
    __attribute__((format(printf, 3, 4)));

/* The first fault of a word stays. */
static void set_fault(mark *m, unsigned number, const char *format, ...)
{
    char text[WHY_MOST];
    va_list values;
    if (m->fault)
        return;
    va_start(values, format);
    vsnprintf(text, sizeof text, format, values);
    va_end(values);
    m->fault = number;
    m->why = strdup(text);
}

/* ==== As stored: 9, 10, 11 ==== */

static void mark_stored(const vin_plan *plan, const run *capture, const stored *s, mark *m)
{
    if (s->slot == SLOT_SYNC) {
        if (s->word != SYNC_WORD)
            set_fault(m, VIN_SYNC, "expected FAF320");
        return;
    }
    if (plan->parity && count_ones(s->word) % 2 == 0)
        set_fault(m, VIN_PARITY, "%u ones, an even number", count_ones(s->word));
    if (s->slot == SLOT_CRC) {
        uint32_t right = frame_crc(plan, capture, s->place + 1 - plan->words);
        if (s->word != right)
            set_fault(m, VIN_CRC, "expected %06" PRIX32, right);
    }
}

/* ==== Frame time: 12 ==== */

static void mark_frame_time(const vin_plan *plan, const run *capture, uint64_t group, mark *marks)
{
    uint32_t parts[FRAME_TIME_WORDS];
    bool good = true;
    for (uint32_t n = 0; n < FRAME_TIME_WORDS; n++) {
        stored s = stored_at(plan, capture, dealt_place(plan, group, plan->tracks + n));
        mark *m = &marks[s.place];
        parts[n] = s.info;
        if (s.bus != 0 || s.label != LABEL_HIGH - n)
            set_fault(m, VIN_FRAME_TIME, "expected bus 0 and label %u", LABEL_HIGH - n);
        else if (s.label == LABEL_MICRO && s.info >= 10000)
            set_fault(m, VIN_FRAME_TIME, "micro is %" PRIu32 ": it must be below 10000", s.info);
        good = good && !m->fault;
        m->timed = good && n == 2;
        if (m->timed) {
            walk w = {AWAIT_NOTHING, {0}, parts[0], parts[1], 0};
            m->time = walk_time(&w, parts[2]);
        }
    }
}

/* ==== Items: 13 ==== */

static void mark_item(walk *w, const vin_plan *plan, const stored *s, mark *m)
{
    walk before = *w;
    char why[WHY_MOST];
    enum step step = walk_word(w, plan, s);
    if (step == STEP_BREAKS) {
        tell_break(plan, &before, s, why);
        set_fault(m, VIN_DATA_WORD, "%s", why);
        if (is_unfinished(&before))
            step = walk_word(w, plan, s);
    }
    if (step == STEP_FILL || step == STEP_BREAKS)
        return;
    m->item = (uint32_t)w->items;
    m->starts = step == STEP_STARTS;
    m->timed = step == STEP_ENDS && before.awaits == AWAIT_MICRO;
    m->time = m->timed ? walk_time(w, s->info) : 0;
}

static void mark_cut(const walk *w, const vin_plan *plan, mark *marks)
{
    char why[WHY_MOST];
    if (!is_unfinished(w))
        return;
    tell_cut(plan, w, why);
    set_fault(&marks[w->first.place], VIN_DATA_WORD, "%s", why);
}

/* ==== Notices: 15 ==== */

enum { CHANNELS = 4 };

/* A notice is open if its bus and channel have another, or the end, before an ARINC word. */
static void mark_notices(const vin_plan *plan, const run *capture, mark *marks)
{
    mark *waiting[BUSES][CHANNELS + 1] = {{NULL}};
    char why[BUSES][WHY_MOST];
    uint64_t groups = capture_words(capture) / group_words(plan);
    for (unsigned bus = 0; bus < BUSES; bus++)
        tell_open(bus, why[bus]);
    for (uint64_t group = 0; group < groups; group++)
        for (uint64_t n = plan->tracks; n < group_words(plan); n++) {
            stored s = stored_at(plan, capture, dealt_place(plan, group, n));
            mark *m = &marks[s.place];
            bool notice = s.label == LABEL_4;
            mark **of_channel;
            if (!m->starts || plan->kinds[s.bus] != VIN_KIND_ARINC || (!notice && s.label < 8))
                continue;
            of_channel = &waiting[s.bus][channel_of(notice ? s.info >> 12 : s.label)];
            if (notice && *of_channel)
                set_fault(*of_channel, VIN_NOTICE, "%s", why[s.bus]);
            *of_channel = notice ? m : NULL;
        }
    for (unsigned bus = 0; bus < BUSES; bus++)
        for (unsigned channel = 0; channel <= CHANNELS; channel++)
            if (waiting[bus][channel])
                set_fault(waiting[bus][channel], VIN_NOTICE, "%s", why[bus]);
}

/* ==== Fill: 14 ==== */

/* Back from the last slot, so that it is known what follows. */
static void mark_fill(const vin_plan *plan, const run *capture, mark *marks)
{
    uint64_t groups = capture_words(capture) / group_words(plan), last = 0;
    bool data = false;
    for (uint64_t group = groups; group-- > 0;)
        for (uint64_t n = group_words(plan); n-- > plan->tracks;) {
            stored s = stored_at(plan, capture, dealt_place(plan, group, n));
            if (s.slot != SLOT_DATA)
                continue;
            if (!is_fill(&s)) {
                last = data ? last : group;
                data = true;
            } else if (s.bus != plan->fill_bus)
                set_fault(&marks[s.place], VIN_FILL, "its bus is %" PRIu32 " and not %" PRIu32, s.bus,
                          plan->fill_bus);
            else if (data)
                set_fault(&marks[s.place], VIN_FILL, "data follows it");
        }
    for (uint64_t place = data ? (last + 1) * group_words(plan) : 0; place < capture_words(capture);
         place++) {
        stored s = stored_at(plan, capture, place);
        if (s.slot == SLOT_DATA && is_fill(&s))
            set_fault(&marks[place], VIN_FILL, "its group is after the last data word's");
    }
}

static bool any_fault(const mark *marks, uint64_t count)
{
    uint64_t n = 0;
    while (n < count && !marks[n].fault)
        n++;
    return n < count;
}

mark *mark_words(const vin_plan *plan, const run *capture)
{
    uint64_t count = capture_words(capture), groups = count / group_words(plan);
    mark *marks = calloc(count + 1, sizeof *marks);
    walk w = {AWAIT_NOTHING, {0}, 0, 0, 0};
    for (uint64_t group = 0; marks && group < groups; group++) {
        for (uint64_t n = 0; n < group_words(plan); n++) {
            stored s = stored_at(plan, capture, group * group_words(plan) + n);
            mark_stored(plan, capture, &s, &marks[s.place]);
        }
        if (plan->frame_time)
            mark_frame_time(plan, capture, group, marks);
        for (uint64_t n = plan->tracks; n < group_words(plan); n++) {
            stored s = stored_at(plan, capture, dealt_place(plan, group, n));
            if (s.slot == SLOT_DATA)
                mark_item(&w, plan, &s, &marks[s.place]);
        }
    }
    if (marks)
        mark_cut(&w, plan, marks);
    if (marks && !any_fault(marks, count))
        mark_notices(plan, capture, marks);
    if (marks && !any_fault(marks, count))
        mark_fill(plan, capture, marks);
    return marks;
}

void drop_marks(mark *marks, uint64_t count)
{
    for (uint64_t n = 0; marks && n < count; n++)
        free(marks[n].why);
    free(marks);
}
