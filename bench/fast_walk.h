/* A log walked item by item, 64 bits at a time, for the functions on logs alone. */
#ifndef FAST_WALK_H
#define FAST_WALK_H

#include "fast_inside.h"

/* How long an item is, by its kind and the three bits behind its bus; 0 bits: there is no such kind. */
typedef struct {
    uint8_t bits, timed; /* timed: its last 14 bits are a micro or response */
} form;

extern form forms[128];

typedef struct {
    size_t bit;
    int end; /* what stands at `bit` is no item that may stand there: the end mark, or a fault */
} walked;

/* What is done with an item: its place, its first 57 bits or more at the top of a word, and how many it has. */
typedef void use_item(void *with, const uint8_t *log, size_t bit, uint64_t front, uint32_t bits);

/* The items that begin before `stop`; the 24 bytes from there on can be read. */
static inline __attribute__((always_inline)) walked walk_part(const uint8_t *log, size_t bit, size_t stop, use_item *use, void *with)
{
    while (bit < stop) {
        uint64_t v = load64(log + (bit >> 3)) << (bit & 7);
        form f;
        size_t fine;
        if (v >> 60 == 3) { /* runs of data words: the next one's bit does not wait for this one's kind */
            use(with, log, bit, v, 25);
            bit += 25;
            continue;
        }
        f = forms[v >> 60 << 3 | (v >> 53 & 7)];
        fine = bit + f.bits - 14;
        if (UNLIKELY(f.bits == 0) || UNLIKELY(f.timed && load64(log + (fine >> 3)) << (fine & 7) >> 50 >= 10000))
            return (walked){bit, 1};
        use(with, log, bit, v, f.bits);
        bit += f.bits;
    }
    return (walked){bit, 0};
}

/* The whole log; answers the bits of its items, or SIZE_MAX if there is a fault. The last bytes are read from a copy with room behind
 * it. Of a log with a fault items may be used that are none. */
static inline __attribute__((always_inline)) size_t walk_log(const uint8_t *log, size_t log_len, use_item *use, void *with)
{
    uint8_t tail[64] = {0};
    walked at = {0, 0};
    size_t first, bits;
    if (log_len > VIN_LOG_MAX)
        return SIZE_MAX;
    if (log_len > 24)
        at = walk_part(log, 0, 8 * (log_len - 24), use, with);
    first = at.bit >> 3;
    if (at.end || first >= log_len)
        return SIZE_MAX; /* an end mark so far from the end is a fault, too */
    memcpy(tail, log + first, log_len - first);
    bits = 8 * (log_len - first);
    at = walk_part(tail, at.bit & 7, bits, use, with);
    if (!at.end || at.bit + 4 > bits || bits - at.bit - 4 >= 8 || load64(tail + (at.bit >> 3)) << (at.bit & 7) >> 48 != 0)
        return SIZE_MAX;
    return 8 * first + at.bit;
}

/* 2 or 4, and where. */
vin_answer refuse_log_alone(const uint8_t *log, size_t log_len);

#endif
