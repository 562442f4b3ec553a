#include "hints.h"

#include <inttypes.h>
#include <stdio.h>

/* How often something was seen where it could be. More than half the time it is no chance. */
typedef struct {
    uint64_t seen, all;
} share;

static bool is_most(share s)
{
    return 2 * s.seen > s.all;
}

/* "every frame", or "8 of 9 frames". */
static void tell_share(share s, const char *one, char text[64])
{
    if (s.seen == s.all)
        snprintf(text, 64, "every %s", one);
    else
        snprintf(text, 64, "%" PRIu64 " of %" PRIu64 " %ss", s.seen, s.all, one);
}

/* ==== What can be seen ==== */

/* Frames that end in their CRC word, if its label were this. */
static share crc_words(const vin_plan *plan, const run *capture, uint32_t label)
{
    share s = {0, capture_words(capture) / plan->words};
    vin_plan by = *plan;
    by.crc_label = label;
    for (uint64_t n = 0; n < s.all; n++) {
        uint64_t first = n * plan->words;
        stored last = stored_at(plan, capture, first + plan->words - 1);
        s.seen += stored_at(plan, capture, first).word == SYNC_WORD && last.label == label
                  && last.word == frame_crc(&by, capture, first);
    }
    return s;
}

/* The label by which most frames end in their CRC word, and how many do; or the plan's, if none is. */
static uint32_t crc_label(const vin_plan *plan, const run *capture, share *s)
{
    for (uint32_t label = 0; label <= LABEL_MOST; label++) {
        *s = crc_words(plan, capture, label);
        if (is_most(*s))
            return label;
    }
    *s = (share){0, 0};
    return plan->crc_label;
}

/* The bus that most fill has, and how much of it; or the plan's, if none has. */
static uint32_t fill_bus(const vin_plan *plan, const run *capture, share *s)
{
    uint64_t seen[BUSES] = {0}, all = 0;
    for (uint64_t place = 0; place < capture_words(capture); place++) {
        stored w = stored_at(plan, capture, place);
        bool fill = w.slot == SLOT_DATA && is_fill(&w);
        seen[w.bus] += fill;
        all += fill;
    }
    for (uint32_t bus = 0; bus < BUSES; bus++) {
        *s = (share){seen[bus], all};
        if (is_most(*s))
            return bus;
    }
    *s = (share){0, 0};
    return plan->fill_bus;
}

static share frame_times(const vin_plan *plan, const run *capture)
{
    share s = {0, capture_words(capture) / group_words(plan)};
    for (uint64_t group = 0; group < s.all; group++) {
        bool all = true;
        for (uint32_t n = 0; n < FRAME_TIME_WORDS; n++) {
            stored w = stored_at(plan, capture, dealt_place(plan, group, plan->tracks + n));
            all = all && w.bus == 0 && w.label == LABEL_HIGH - n && (n < 2 || w.info < 10000);
        }
        s.seen += all;
    }
    return s;
}

/* Has every word an odd number of ones? By chance few data words would. */
static bool all_odd(const vin_plan *plan, const run *capture)
{
    enum { ENOUGH = 24 };
    uint64_t data = 0;
    for (uint64_t place = 0; place < capture_words(capture); place++) {
        stored s = stored_at(plan, capture, place);
        if (count_ones(s.word) % 2 == 0)
            return false;
        data += s.slot == SLOT_DATA && !is_fill(&s);
    }
    return data >= ENOUGH;
}

/* How many words at this distance are sync words. */
static share sync_words(const vin_plan *plan, const run *capture, uint64_t distance)
{
    share s = {0, 0};
    for (uint64_t place = 0; place < capture_words(capture); place += distance) {
        s.seen += stored_at(plan, capture, place).word == SYNC_WORD;
        s.all++;
    }
    return s;
}

/* The least distance of sync words, as frames have it, over the whole capture, if it is another than the
 * plan's; or 0. A larger one counts only where the plan's own words are mostly no sync words: one damaged
 * sync word is not enough. */
static uint64_t other_distance(const vin_plan *plan, const run *capture)
{
    enum { LEAST = 128, MOST = 512 };
    uint64_t most = is_most(sync_words(plan, capture, plan->words)) ? plan->words - 1 : MOST;
    for (uint64_t d = LEAST; d <= most && d < capture_words(capture); d++) {
        share s = sync_words(plan, capture, d);
        if (s.seen == s.all)
            return d == plan->words ? 0 : d;
    }
    return 0;
}

/* ==== In words ==== */

/* CRC words where the plan has none, or with another label than the plan's. */
static void say_crc(const char *word, const char *file, const vin_plan *plan, const run *capture)
{
    share s;
    char text[64], with[32] = "";
    uint32_t label = crc_label(plan, capture, &s);
    if (!is_most(s) || (plan->crc && label == plan->crc_label))
        return;
    tell_share(s, "frame", text);
    if (label != plan->crc_label)
        snprintf(with, sizeof with, "%scrc-label %" PRIu32, plan->crc ? "" : " and ", label);
    if (plan->crc)
        complain("%s: %s: the last word of %s is the CRC word of its frame with label %" PRIu32
                 "; was the capture made with %s?",
                 file, word, text, label, with);
    else
        complain("%s: %s: the last data slot of %s holds the CRC word of its frame; was the capture made "
                 "with crc yes%s?",
                 file, word, text, with);
}

static void say_fill_bus(const char *word, const char *file, const vin_plan *plan, const run *capture)
{
    share s;
    char text[64];
    uint32_t bus = fill_bus(plan, capture, &s);
    if (!is_most(s) || bus == plan->fill_bus)
        return;
    tell_share(s, "fill word", text);
    complain("%s: %s: the bus of %s is %" PRIu32 "; was the capture made with fill-bus %" PRIu32 "?", file,
             word, text, bus, bus);
}

void say_hints(const char *word, const char *name, const vin_plan *plan, const run *capture)
{
    shown_name shown_file = input_name(name);
    const char *file = shown_file.text;
    char text[64];
    uint64_t distance = other_distance(plan, capture);
    if (distance) {
        complain("%s: %s: the sync word FAF320 stands every %" PRIu64 " words; the plan says %" PRIu32, file,
                 word, distance, plan->words);
        return; /* then no word stands where the plan has it */
    }
    share times = frame_times(plan, capture);
    if (!plan->frame_time && is_most(times)) {
        tell_share(times, "group", text);
        complain(
            "%s: %s: the first data slots of %s hold a frame time; was the capture made with frame-time yes?",
            file, word, text);
    }
    say_crc(word, file, plan, capture);
    say_fill_bus(word, file, plan, capture);
    if (!plan->parity && all_odd(plan, capture))
        complain("%s: %s: every word has an odd number of ones; was the capture made with parity yes?", file,
                 word);
}
