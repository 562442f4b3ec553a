/* Document 02, K10: "Salvage a damaged capture." */
#include <string.h>

#include "rules.h"

/* What is salvaged so far. */
typedef struct {
    held h;
    uint64_t words[ITEM_WORDS_MAX]; /* where the words of what is held are stored, in dealt order */
    uint32_t count;
    log_writer log;
    uint8_t *times; /* these two NULL: only counted */
    uint64_t *report;
    uint64_t kept, entries;
} salvage;

/* "The report names each dropped group by index with its fault's number, and each dropped data word outside these by its place": an entry
 * is number x 2^32 + index or place, a word's number 0 (docs/DECISIONS.md, K10). */
static void name_dropped(salvage *s, uint64_t number, uint64_t which)
{
    if (s->report != NULL)
        s->report[s->entries] = number << 32 | which;
    s->entries++;
}

/* "drops that item's words": all of them. */
static void drop_held(salvage *s)
{
    if (s->h.stage == NOTHING)
        return;
    for (uint32_t n = 0; n < s->count; n++)
        name_dropped(s, 0, s->words[n]);
    s->h.stage = NOTHING;
}

/* "A word that cannot continue the unfinished item drops that item's words and is tried as a start; if it starts nothing it is dropped
 * too." */
static void salvage_word(salvage *s, const plan *p, word w, uint64_t place)
{
    bool unfinished = reader_unfinished(&s->h), taken = reader_feed(&s->h, p, w, place, &s->log);
    if (!taken && unfinished) {
        drop_held(s);
        taken = reader_feed(&s->h, p, w, place, &s->log);
    }
    if (!taken) {
        s->h.stage = NOTHING;
        name_dropped(s, 0, place);
        return;
    }
    if (s->h.first == place)
        s->count = 0;
    s->words[s->count++] = place;
}

/* "Salvage drops each group with a fault 9 to 12 and reads the rest for items." "Nothing is joined across a dropped group, and a command or
 * ARINC word that is the last data before one, its tag not yet seen, is dropped as well." "The time row has the kept groups only." */
static void salvage_group(salvage *s, const tape *c, uint64_t group)
{
    ind_answer fault = group_fault(c, group);
    if (fault.number != 0) {
        drop_held(s);
        name_dropped(s, fault.number, group);
        return;
    }
    if (s->times != NULL && c->p->frame_time)
        time_to_bytes(s->times + 8 * s->kept, frame_time_of(c, group));
    s->kept++;
    for (uint64_t slot = 0; slot < group_slots(c->p); slot++) {
        uint64_t place = slot_place(c, group, slot);
        word w = word_at(c, place);
        if (!is_fill(w))
            salvage_word(s, c->p, w, place);
    }
}

/* "An item left unfinished at the end is dropped." */
static void salvage_all(salvage *s, const tape *c, uint8_t *times, uint64_t *report)
{
    memset(s, 0, sizeof *s);
    s->times = times;
    s->report = report;
    log_begin(&s->log);
    for (uint64_t group = 0; group < c->groups; group++)
        salvage_group(s, c, group);
    if (!reader_end(&s->h, &s->log))
        drop_held(s);
}

static ind_salvaged refused_by(uint32_t number, uint64_t place)
{
    return (ind_salvaged){.number = number, .place = place};
}

/* "Refusals: 1, 8, then 6, 7, then 20 for too little report room (entries needed)." */
ind_salvaged ind_salvage(uint32_t words, uint32_t tracks, uint32_t frame_time, uint32_t crc, uint32_t parity, uint32_t crc_label,
                         uint32_t fill_bus, const uint8_t *kinds, size_t kinds_len, const uint8_t *bytes, size_t bytes_len, uint8_t *log,
                         size_t log_len, uint8_t *times, size_t times_len, uint64_t *report, size_t report_len)
{
    plan p;
    tape c;
    salvage s;
    uint64_t log_bytes, times_needed;
    if (!plan_of(&p, words, tracks, frame_time, crc, parity, crc_label, fill_bus, kinds, kinds_len))
        return refused_by(1, 0);
    if (!capture_of(&c, &p, bytes, bytes_len))
        return refused_by(8, bytes_len);
    salvage_all(&s, &c, NULL, NULL);
    log_bytes = log_end(&s.log);
    if (log_bytes > LOG_MAX || log_bytes > log_len)
        return refused_by(6, log_bytes);
    times_needed = p.frame_time ? s.kept : 0;
    if (times_len / 8 < times_needed)
        return refused_by(7, times_needed);
    if (report_len < s.entries)
        return refused_by(20, s.entries);
    memcpy(log, s.log.bytes, log_bytes);
    salvage_all(&s, &c, times, report);
    return (ind_salvaged){.bytes = log_bytes, .times = times_needed, .entries = s.entries};
}
