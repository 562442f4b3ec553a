/* Document 02, K3: "Divide reading into two public operations". */
#include <string.h>

#include "rules.h"

/* "for more than 349,525 words": as many as a capture of 1,048,576 bytes has. */
#define ROW_MAX 349525u

/* "one undoes frames and tracks and hands out data slots in dealt order, fill included, with the frame times": as stored, the parity bit
 * with them (docs/DECISIONS.md, K3). */
static void put_words(const tape *c, uint32_t *words)
{
    for (uint64_t group = 0; group < c->groups; group++)
        for (uint64_t slot = 0; slot < group_slots(c->p); slot++)
            *words++ = stored(c->bytes, slot_place(c, group, slot));
}

/* "the first gives 1, 8 to 12, then 6 for its word room (place in words), then 7" */
ind_answer ind_read_words(uint32_t words, uint32_t tracks, uint32_t frame_time, uint32_t crc, uint32_t parity, uint32_t crc_label,
                          uint32_t fill_bus, const uint8_t *kinds, size_t kinds_len, const uint8_t *bytes, size_t bytes_len,
                          uint32_t *row, size_t row_len, uint8_t *times, size_t times_len)
{
    plan p;
    tape c;
    uint64_t slots;
    if (!plan_of(&p, words, tracks, frame_time, crc, parity, crc_label, fill_bus, kinds, kinds_len))
        return refused(1, 0);
    if (!capture_of(&c, &p, bytes, bytes_len))
        return refused(8, bytes_len);
    for (uint64_t group = 0; group < c.groups; group++) {
        ind_answer fault = group_fault(&c, group);
        if (fault.number != 0)
            return fault;
    }
    slots = c.groups * group_slots(&p);
    if (row_len < slots)
        return refused(6, slots);
    if (times_len / 8 < times_of(&c))
        return refused(7, times_of(&c));
    put_words(&c, row);
    put_times(&c, times);
    return (ind_answer){.bytes = slots, .times = times_of(&c)};
}

/* "13 (also for a number above 24 bits)", each in its turn. "The second counts places in the words it was given and, with parity, takes
 * no notice of bit 1." */
static ind_answer read_row(const plan *p, const uint32_t *row, size_t row_len, log_writer *log)
{
    held h = {.stage = NOTHING};
    for (uint64_t n = 0; n < row_len; n++) {
        uint64_t first_word = reader_unfinished(&h) ? h.first : n;
        if (row[n] > 0xFFFFFF)
            return broken(n, first_word);
        if (!is_fill(received(p, row[n])) && !reader_feed(&h, p, received(p, row[n]), n, log))
            return broken(n, first_word);
    }
    return reader_end(&h, log) ? passed() : broken(h.first, h.first);
}

/* 15, of words that are items: the earliest notice that another one or the end shows open. Word n has the number n + 1. */
static ind_answer row_notices(const plan *p, const uint32_t *row, size_t row_len)
{
    notices waiting = {{{0}}};
    uint64_t open = 0;
    for (uint64_t n = 0; n < row_len; n++)
        open = earlier(open, notices_see(&waiting, p, received(p, row[n]), n + 1));
    open = earlier(open, notices_earliest(&waiting));
    return open == 0 ? passed() : refused(15, open - 1);
}

/* "the second gives 1, 8 for more than 349,525 words (their number), 13 .., 15, 6" */
ind_answer ind_read_items(uint32_t words, uint32_t tracks, uint32_t frame_time, uint32_t crc, uint32_t parity, uint32_t crc_label,
                          uint32_t fill_bus, const uint8_t *kinds, size_t kinds_len, const uint32_t *row, size_t row_len, uint8_t *log,
                          size_t log_len)
{
    plan p;
    log_writer made;
    ind_answer fault;
    uint64_t bytes;
    if (!plan_of(&p, words, tracks, frame_time, crc, parity, crc_label, fill_bus, kinds, kinds_len))
        return refused(1, 0);
    if (row_len > ROW_MAX)
        return refused(8, row_len);
    log_begin(&made);
    fault = read_row(&p, row, row_len, &made);
    if (fault.number == 0)
        fault = row_notices(&p, row, row_len);
    if (fault.number != 0)
        return fault;
    bytes = log_end(&made);
    if (bytes > LOG_MAX || log_len < bytes)
        return refused(6, bytes);
    memcpy(log, made.bytes, bytes);
    return (ind_answer){.bytes = bytes};
}
