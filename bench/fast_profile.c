/* The one-bus test profile for speed: one pass over the log, 64 bits at a time. What is wrong with a log that has a fault is found by
 * fast_refuse.c's walk. */
#include "fast_inside.h"

#define NONE ((size_t)-1)
#define NO_HEAD UINT32_MAX

typedef struct {
    size_t bit;
    size_t broken;    /* the first item's bit that breaks a rule */
    uint64_t last;    /* the last tag: high, low and micro as one number, which is ordered as times are */
    uint32_t licence; /* the head of a command that needs no tag: kind, bus, side, not tagged */
    uint32_t bus;     /* the first item's; 16 before it */
    int fault, end;
} walk;

/* Takes the items that begin before `stop`; 24 bytes from there on can be read. An item's bits behind the log's end are seen by the
 * caller, since `bit` then is beyond it. */
static inline walk over(const uint8_t *log, walk w, size_t stop)
{
    while (w.bit < stop) {
        uint64_t v = load64(log + (w.bit >> 3)) << (w.bit & 7);
        uint32_t kind = (uint32_t)(v >> 60), bus = v >> 56 & 15, flag = v >> 54 & 1, head = (uint32_t)(v >> 54), licence = NO_HEAD;
        size_t bits = 25;
        int breaks = bus != w.bus;
        if (UNLIKELY(breaks && w.bus == 16)) {
            w.bus = bus;
            breaks = 0;
        }
        if (LIKELY(kind == 3 || kind == 4)) {
            bits = 25;
        } else if (kind == 1) {
            bits = 26;
            if (flag) {
                uint64_t t = load64(log + ((w.bit + 26) >> 3)) << ((w.bit + 26) & 7) >> 18;
                w.fault |= (t & 0x3FFF) >= 10000;
                breaks |= t < w.last;
                w.last = t;
                licence = head - 1;
                bits = 72;
            } else {
                breaks |= head != w.licence;
            }
        } else if (kind == 2) {
            bits = 26 + (14 & -(size_t)flag);
            w.fault |= flag && (v >> 24 & 0x3FFF) >= 10000;
            breaks |= !flag;
        } else if (kind == 8) {
            bits = 24;
        } else if (kind == 5) {
            uint32_t tagged = v >> 53 & 1;
            uint64_t t = load64(log + ((w.bit + 43) >> 3)) << ((w.bit + 43) & 7) >> 18;
            w.fault |= tagged && (t & 0x3FFF) >= 10000;
            breaks = 1;
            bits = 43 + (46 & -(size_t)tagged);
        } else if (kind == 6 || kind == 7) {
            breaks = 1;
            bits = kind == 6 ? 18 : 25;
        } else {
            w.end = kind == 0;
            w.fault |= kind != 0;
            return w;
        }
        if (UNLIKELY(breaks) && w.broken == NONE)
            w.broken = w.bit;
        w.licence = licence;
        w.bit += bits;
        if (UNLIKELY(w.fault))
            return w;
    }
    return w;
}

vin_answer fast_profile(const uint8_t *log, size_t log_len)
{
    static const fast_plan any = {.used_1553 = 0xFFFF, .used_arinc = 0xFFFF};
    uint8_t tail[64] = {0};
    walk w = {0, NONE, 0, NO_HEAD, 16, 0, 0};
    size_t all = 8 * log_len, from, left;
    if (log_len > VIN_LOG_MAX)
        return refused(2, 0);
    if (log_len > 24)
        w = over(log, w, all - 8 * 24);
    if (!w.fault && !w.end && w.bit <= all) {
        size_t early = w.broken;
        from = w.bit >> 3; /* at most 24 bytes before the end */
        memcpy(tail, log + from, log_len - from);
        w.bit -= 8 * from;
        w.broken = NONE;
        w = over(tail, w, 8 * (log_len - from));
        w.bit += 8 * from;
        w.broken = early != NONE ? early : w.broken != NONE ? w.broken + 8 * from : NONE;
    }
    left = all - w.bit;
    if (w.fault || !w.end || w.bit > all || left < 4 || left >= 12 || (log[log_len - 1] & ((1u << (left - 4)) - 1)) != 0)
        return refuse_log(&any, log, log_len);
    return w.broken == NONE ? refused(0, 0) : refused(18, w.broken);
}
