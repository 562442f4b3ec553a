/* Document 02, K9: a wrong clock at the aircraft. */
#include <string.h>

#include "rules.h"

#define SHIFT_MOST INT64_C(31622400000000) /* "at most 31,622,400,000,000 either way" */

/* "moved by a signed number of microseconds": false for a time "that would fall below zero or reach 42,949,672,960,000". The time may be
 * any number, so that neither sum nor difference is made before it is known to fit. */
static bool moved(uint64_t time, int64_t by, uint64_t *to)
{
    if (by < 0) {
        uint64_t back = (uint64_t)-by;
        if (time < back || time - back >= TIME_LIMIT)
            return false;
        *to = time - back;
        return true;
    }
    if (time >= TIME_LIMIT || time + (uint64_t)by >= TIME_LIMIT)
        return false;
    *to = time + (uint64_t)by;
    return true;
}

/* "all time tags": those of commands and ARINC words. "Response times .. stay." */
static bool move_item(item *i, int64_t by)
{
    uint64_t time;
    if (!i->tagged)
        return true;
    if (!moved(time_join(i->time), by, &time))
        return false;
    i->time = time_split(time);
    return true;
}

/* The log with every tag moved; 17 at "its item's first bit". The log has no fault. */
static ind_answer move_log(log_writer *made, const uint8_t *log, size_t log_len, int64_t by)
{
    uint64_t bit = 0, first_bit = 0;
    item i;
    log_begin(made);
    for (; log_next(log, log_len, &bit, &i) == STANDS_ITEM; first_bit = bit) {
        if (!move_item(&i, by))
            return refused(17, first_bit);
        log_put(made, &i);
    }
    return passed();
}

/* "then a frame time likewise (its index)". Bytes beyond whole eights count for nothing (docs/DECISIONS.md). */
static ind_answer check_row(const uint8_t *times, size_t entries, int64_t by)
{
    uint64_t time;
    for (size_t index = 0; index < entries; index++)
        if (!moved(time_from_bytes(times + 8 * index), by, &time))
            return refused(17, index);
    return passed();
}

/* "The time row is written over" */
static void move_row(uint8_t *times, size_t entries, int64_t by)
{
    uint64_t time = 0;
    for (size_t index = 0; index < entries; index++) {
        moved(time_from_bytes(times + 8 * index), by, &time);
        time_to_bytes(times + 8 * index, time);
    }
}

/* "2, 4 as in composing; 17 for a shift out of limits (place 0), a tag .., then a frame time ..; 6 last." */
ind_answer ind_shift(const uint8_t *log, size_t log_len, int64_t microseconds, uint8_t *times, size_t times_len, uint8_t *out, size_t out_len)
{
    log_writer made;
    uint64_t bytes;
    ind_answer fault = log_fault(log, log_len);
    if (fault.number != 0)
        return fault;
    if (microseconds > SHIFT_MOST || microseconds < -SHIFT_MOST)
        return refused(17, 0);
    fault = move_log(&made, log, log_len, microseconds);
    if (fault.number == 0)
        fault = check_row(times, times_len / 8, microseconds);
    if (fault.number != 0)
        return fault;
    bytes = log_end(&made);
    if (out_len < bytes)
        return refused(6, bytes);
    memcpy(out, made.bytes, bytes);
    move_row(times, times_len / 8, microseconds);
    return (ind_answer){.bytes = bytes, .times = times_len / 8};
}
