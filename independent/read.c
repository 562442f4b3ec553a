/* Document 01: the plain and the closed reading; document 02, K2: open notices, K5: the whole plan, K8: which item broke. */
#include <string.h>

#include "rules.h"

/* "13: data word starts or continues no item, fill not AAAA". "The plain reading drops fill on any bus in any slot". K8: "the first
 * word of the item that was unfinished when the bad word came, or the bad word itself if none was". */
static ind_answer read_slots(const tape *c, uint64_t group, held *h, log_writer *log)
{
    for (uint64_t slot = 0; slot < group_slots(c->p); slot++) {
        uint64_t place = slot_place(c, group, slot);
        word w = word_at(c, place);
        uint64_t first_word = reader_unfinished(h) ? h->first : place;
        if (!is_fill(w) && !reader_feed(h, c->p, w, place, log))
            return broken(place, first_word);
    }
    return passed();
}

/* "then group by group: each word as stored .., then 12, then 13, both in dealt order; after the last group the cut item" */
static ind_answer read_groups(const tape *c, log_writer *log)
{
    held h = {.stage = NOTHING};
    for (uint64_t group = 0; group < c->groups; group++) {
        ind_answer answer = group_fault(c, group);
        if (answer.number == 0)
            answer = read_slots(c, group, &h, log);
        if (answer.number != 0)
            return answer;
    }
    /* "for an item cut at the end both places are its first word" (K8) */
    return reader_end(&h, log) ? passed() : broken(h.first, h.first);
}

/* The notice, or the ARINC word, that the data word at a slot begins, the slots of all groups counted. */
static uint32_t begins(const tape *c, uint64_t slot, word *w, uint32_t *channel)
{
    *w = word_at(c, slot_place(c, slot / group_slots(c->p), slot % group_slots(c->p)));
    return word_begins(c->p, *w, channel);
}

/* K2: "Call a notice open if no ARINC word of its bus and channel stands between it and their next notice, or the end." Of the data
 * words behind a notice's slot. */
static bool notice_open(const tape *c, uint64_t slot, uint32_t bus, uint32_t channel)
{
    while (++slot < c->groups * group_slots(c->p)) {
        word w;
        uint32_t of, kind = begins(c, slot, &w, &of);
        if (kind != END && w.bus == bus && of == channel)
            return kind == NOTICE;
    }
    return true;
}

/* "15, at the earliest open notice (.. its word)", of a capture that reads as items: "after the cut item and before 14" */
static ind_answer check_notices(const tape *c)
{
    for (uint64_t slot = 0; slot < c->groups * group_slots(c->p); slot++) {
        word w;
        uint32_t channel;
        if (begins(c, slot, &w, &channel) == NOTICE && notice_open(c, slot, w.bus, channel))
            return refused(15, slot_place(c, slot / group_slots(c->p), slot % group_slots(c->p)));
    }
    return passed();
}

/* "Fill is misplaced if a data word follows it, if neither its group nor a later one has a data word, or if its bus is not"
 * the plan's: "Misplaced fill is judged against the plan's code" (K5). "14: earliest such word, dealt order" */
static ind_answer check_fill(const tape *c)
{
    uint64_t slots = group_slots(c->p);
    uint64_t data_end = 0; /* one more than the last data word's slot, counted over all groups; 0 if there is none */
    for (uint64_t slot = 0; slot < c->groups * slots; slot++)
        if (!is_fill(word_at(c, slot_place(c, slot / slots, slot % slots))))
            data_end = slot + 1;
    for (uint64_t slot = 0; slot < c->groups * slots; slot++) {
        uint64_t place = slot_place(c, slot / slots, slot % slots);
        word w = word_at(c, place);
        bool data_follows = slot + 1 < data_end;
        bool data_here_or_later = data_end > 0 && slot / slots <= (data_end - 1) / slots;
        if (is_fill(w) && (data_follows || !data_here_or_later || w.bus != c->p->fill_bus))
            return refused(14, place);
    }
    return passed();
}

static ind_answer reading(bool closed, uint32_t words, uint32_t tracks, uint32_t frame_time, uint32_t crc, uint32_t parity,
                          uint32_t crc_label, uint32_t fill_bus, const uint8_t *kinds, size_t kinds_len, const uint8_t *bytes, size_t bytes_len,
                          uint8_t *log, size_t log_len, uint8_t *times, size_t times_len)
{
    plan p;
    log_writer made;
    ind_answer answer;
    uint64_t log_bytes, times_needed;
    tape c;

    /* "Reading checks 1, 8" */
    if (!plan_of(&p, words, tracks, frame_time, crc, parity, crc_label, fill_bus, kinds, kinds_len))
        return refused(1, 0);
    if (!capture_of(&c, &p, bytes, bytes_len))
        return refused(8, bytes_len);

    log_begin(&made);
    answer = read_groups(&c, &made);
    if (answer.number == 0)
        answer = check_notices(&c);
    if (answer.number == 0 && closed)
        answer = check_fill(&c);
    if (answer.number != 0)
        return answer;

    /* "6: output too short, or a log above 32,768"; "7: time table too short"; "in a reading's room the spare bytes count for
     * nothing and stay" */
    log_bytes = log_end(&made);
    if (log_bytes > LOG_MAX || log_bytes > log_len)
        return refused(6, log_bytes);
    times_needed = times_of(&c);
    if (times_len / 8 < times_needed)
        return refused(7, times_needed);

    memcpy(log, made.bytes, log_bytes);
    put_times(&c, times);
    return (ind_answer){.bytes = log_bytes, .times = times_needed};
}

ind_answer ind_read_full(uint32_t words, uint32_t tracks, uint32_t frame_time, uint32_t crc, uint32_t parity, uint32_t crc_label,
                         uint32_t fill_bus, const uint8_t *kinds, size_t kinds_len, const uint8_t *capture, size_t capture_len,
                         uint8_t *log, size_t log_len, uint8_t *times, size_t times_len)
{
    return reading(false, words, tracks, frame_time, crc, parity, crc_label, fill_bus, kinds, kinds_len, capture, capture_len,
                   log, log_len, times, times_len);
}

ind_answer ind_read_closed_full(uint32_t words, uint32_t tracks, uint32_t frame_time, uint32_t crc, uint32_t parity, uint32_t crc_label,
                                uint32_t fill_bus, const uint8_t *kinds, size_t kinds_len, const uint8_t *capture, size_t capture_len,
                                uint8_t *log, size_t log_len, uint8_t *times, size_t times_len)
{
    return reading(true, words, tracks, frame_time, crc, parity, crc_label, fill_bus, kinds, kinds_len, capture, capture_len,
                   log, log_len, times, times_len);
}

ind_answer ind_read(uint32_t words, uint32_t tracks, uint32_t frame_time, uint32_t crc, uint32_t parity,
                    const uint8_t *kinds, size_t kinds_len, const uint8_t *capture, size_t capture_len,
                    uint8_t *log, size_t log_len, uint8_t *times, size_t times_len)
{
    return reading(false, words, tracks, frame_time, crc, parity, CRC_LABEL_BEFORE, FILL_BUS_BEFORE, kinds, kinds_len, capture,
                   capture_len, log, log_len, times, times_len);
}

ind_answer ind_read_closed(uint32_t words, uint32_t tracks, uint32_t frame_time, uint32_t crc, uint32_t parity,
                           const uint8_t *kinds, size_t kinds_len, const uint8_t *capture, size_t capture_len,
                           uint8_t *log, size_t log_len, uint8_t *times, size_t times_len)
{
    return reading(true, words, tracks, frame_time, crc, parity, CRC_LABEL_BEFORE, FILL_BUS_BEFORE, kinds, kinds_len, capture,
                   capture_len, log, log_len, times, times_len);
}
