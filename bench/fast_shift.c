/* Shift for speed: the log is copied as it is into a buffer of its own, and each tag is written over there; the row is looked at before it
 * is written. */
#include "fast_walk.h"

typedef struct {
    uint8_t *bytes;
    uint64_t by; /* as a number of 64 bits that wraps: the sum is right, and one that leaves the range is large */
    size_t place;
    int out; /* a tag leaves the range, the first at `place` */
} moving;

/* The 46 bits from here on. */
static inline void put_tag(uint8_t *bytes, size_t bit, uint64_t tag)
{
    uint8_t *b = bytes + (bit >> 3);
    uint32_t have = bit & 7;
    uint64_t mask = (~UINT64_C(0) << 18) >> have, v = load64(b);
    store64(b, (v & ~mask) | tag << 18 >> have);
}

static inline __attribute__((always_inline)) void move_item(void *with, const uint8_t *log, size_t bit, uint64_t front, uint32_t bits)
{
    moving *m = with;
    if (bits > 57) { /* it has a tag */
        size_t tag = bit + bits - 46;
        uint64_t t = load64(log + (tag >> 3)) << (tag & 7) >> 18, time = 10000 * (t >> 14) + (t & 0x3FFF) + m->by, tens;
        if (UNLIKELY(time >= VIN_TIME_LIMIT)) {
            if (!m->out)
                m->place = bit;
            m->out = 1;
            return;
        }
        tens = time / 10000;
        put_tag(m->bytes, tag, tens << 14 | (time - 10000 * tens));
    }
    (void)front;
}

/* The log's last bytes are walked in a copy, whose bits do not stand where the log's do: both parts are walked here one after the other. */
static size_t move_log(const uint8_t *log, size_t log_len, moving *m)
{
    uint8_t tail[64] = {0}, *made = m->bytes;
    walked at = {0, 0};
    size_t first, bits, place;
    if (log_len > 24)
        at = walk_part(log, 0, 8 * (log_len - 24), move_item, m);
    first = at.bit >> 3;
    if (at.end || first >= log_len)
        return SIZE_MAX;
    memcpy(tail, log + first, log_len - first);
    bits = 8 * (log_len - first);
    place = m->out ? m->place : SIZE_MAX;
    m->bytes = made + first;
    at = walk_part(tail, at.bit & 7, bits, move_item, m);
    m->bytes = made;
    m->place = place != SIZE_MAX ? place : 8 * first + m->place;
    if (!at.end || at.bit + 4 > bits || bits - at.bit - 4 >= 8 || load64(tail + (at.bit >> 3)) << (at.bit & 7) >> 48 != 0)
        return SIZE_MAX;
    return 8 * first + at.bit;
}

/* The first entry that leaves the range, or as many as there are. */
static size_t check_row(const uint8_t *times, size_t entries, uint64_t by)
{
    size_t n = 0;
    while (n < entries) {
        uint64_t time = load64(times + 8 * n);
        if (UNLIKELY(time >= VIN_TIME_LIMIT + VIN_SHIFT_MOST || time + by >= VIN_TIME_LIMIT))
            break;
        n++;
    }
    return n;
}

vin_answer fast_shift(const uint8_t *log, size_t log_len, int64_t microseconds, uint8_t *times, size_t times_len, uint8_t *out,
                      size_t out_len)
{
    uint8_t made[VIN_LOG_MAX + 64];
    moving m = {made, (uint64_t)microseconds, 0, 0};
    size_t entries = times_len / 8, bad;
    if (log_len > VIN_LOG_MAX)
        return refused(2, 0);
    memcpy(made, log, log_len);
    if (UNLIKELY(move_log(log, log_len, &m) == SIZE_MAX))
        return refuse_log_alone(log, log_len);
    if (microseconds > VIN_SHIFT_MOST || microseconds < -VIN_SHIFT_MOST)
        return refused(17, 0);
    if (m.out)
        return refused(17, m.place);
    bad = check_row(times, entries, m.by);
    if (bad < entries)
        return refused(17, bad);
    if (out_len < log_len)
        return refused(6, log_len);
    memcpy(out, made, log_len);
    for (size_t n = 0; n < entries; n++)
        store64(times + 8 * n, load64(times + 8 * n) + m.by);
    return (vin_answer){0, 0, 0, log_len, entries};
}
