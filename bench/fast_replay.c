/* The front-end buffer for speed: one walk over the log notes where each item begins and how many words it has; the events are counted in
 * one loop and replayed in another, which notes runs of items that were stored without a loss between; then the runs are copied, 56 bits
 * at a time. */
#include "fast_walk.h"

#define ITEMS_MAX 14564
#define NONE SIZE_MAX

typedef struct {
    size_t bit, count, mark;
    uint32_t start[ITEMS_MAX + 1]; /* its first bit */
    uint8_t words[ITEMS_MAX], bus[ITEMS_MAX];
} noted;

/* Items stored one behind the other, and the mark before them. */
typedef struct {
    uint32_t first, end; /* bits of the log */
    uint16_t lost;       /* 0: no mark */
    uint8_t bus;
} stretch;

static uint8_t words_of[128]; /* by kind and the three bits behind the bus */

__attribute__((constructor)) static void fill_words(void)
{
    for (uint32_t n = 0; n < 128; n++) {
        uint32_t kind = n >> 3, flag = kind == 5 ? n & 1 : n >> 1 & 1;
        words_of[n] = (uint8_t)(kind == 1 ? 1 + 3 * flag : kind == 2 ? 1 + flag : kind == 5 ? 2 + 3 * flag : 1);
    }
}

static inline __attribute__((always_inline)) void note_item(void *with, const uint8_t *log, size_t bit, uint64_t front, uint32_t bits)
{
    noted *n = with;
    (void)log, (void)bit; /* the last bytes are a copy's: the place is counted */
    if (UNLIKELY(n->count == ITEMS_MAX))
        return;
    if (UNLIKELY(front >> 60 == 8) && n->mark == NONE)
        n->mark = n->bit;
    n->start[n->count] = (uint32_t)n->bit;
    n->words[n->count] = words_of[front >> 60 << 3 | (front >> 53 & 7)];
    n->bus[n->count++] = front >> 56 & 15;
    n->bit += bits;
}

static vin_replayed deny(uint32_t number, uint64_t place)
{
    return (vin_replayed){number, place, 0, 0, 0, 0, 0};
}

static int events_good(const uint8_t *events, size_t events_len, size_t items)
{
    uint8_t any = 0;
    uint32_t leave = 0;
    for (size_t n = 0; n < events_len; n++) {
        any |= events[n];
        leave += events[n];
    }
    return any <= 1 && events_len - leave <= items;
}

typedef struct {
    uint8_t *bytes;
    size_t bits;
    uint64_t part; /* the bits of the byte that is begun, at the top */
} pen;

static inline void put(pen *p, uint64_t value, uint32_t bits)
{
    uint32_t have = p->bits & 7;
    uint64_t v = p->part | value << (64 - bits - have);
    store64(p->bytes + (p->bits >> 3), v);
    p->part = v << ((have + bits) & 0x78);
    p->bits += bits;
}

static void put_stretch(pen *p, const uint8_t *log, const stretch *s)
{
    size_t bit = s->first;
    if (s->lost)
        put(p, UINT64_C(8) << 20 | (uint64_t)s->bus << 16 | s->lost, 24);
    for (; bit + 56 <= s->end; bit += 56)
        put(p, load64(log + (bit >> 3)) << (bit & 7) >> 8, 56);
    if (bit < s->end)
        put(p, load64(log + (bit >> 3)) << (bit & 7) >> (64 - (s->end - bit)), (uint32_t)(s->end - bit));
}

vin_replayed fast_replay(const uint8_t *log, size_t log_len, const uint8_t *events, size_t events_len, uint32_t capacity, uint32_t slots,
                         uint8_t *out, size_t out_len)
{
    noted n;
    stretch stretches[ITEMS_MAX / 2 + 1], now = {0, 0, 0, 0};
    uint8_t made[VIN_LOG_MAX + 64], padded[VIN_LOG_MAX + 16];
    size_t count = 0, next = 0, bits = 4, bytes;
    uint64_t held = 0, sent = 0, lost = 0;
    uint32_t unmarked = 0;
    uint8_t bus = 0;
    pen p = {made, 0, 0};
    n.bit = n.count = 0;
    n.mark = NONE;
    if (UNLIKELY(walk_log(log, log_len, note_item, &n) == SIZE_MAX)) {
        vin_answer a = refuse_log_alone(log, log_len);
        return deny(a.number, a.place);
    }
    if (n.mark != NONE)
        return deny(19, n.mark);
    if (capacity < 8 || capacity > 4096 || slots < 1 || slots > 2048 || events_len > 65535 || !events_good(events, events_len, n.count))
        return deny(19, 0);
    n.start[n.count] = (uint32_t)n.bit;
    for (size_t e = 0; e < events_len; e++) {
        if (events[e]) {
            uint64_t taken = held < slots ? held : slots;
            held -= taken;
            sent += taken;
        } else {
            uint32_t need = n.words[next] + (unmarked > 0);
            if (UNLIKELY(held + need > capacity)) {
                bus = unmarked ? bus : n.bus[next];
                unmarked++;
                lost++;
            } else {
                if (UNLIKELY(unmarked > 0)) {
                    if (now.end > now.first || now.lost)
                        stretches[count++] = now;
                    now = (stretch){n.start[next], 0, (uint16_t)unmarked, bus};
                    unmarked = 0;
                    bits += 24;
                }
                now.end = n.start[next + 1];
                bits += n.start[next + 1] - n.start[next];
                held += need;
            }
            next++;
        }
    }
    bytes = (bits + 7) / 8;
    if (bytes > VIN_LOG_MAX || out_len < bytes)
        return deny(6, bytes);
    stretches[count++] = now;
    memcpy(padded, log, log_len);
    for (size_t s = 0; s < count; s++)
        put_stretch(&p, padded, &stretches[s]);
    put(&p, 0, 4);
    memcpy(out, made, bytes);
    return (vin_replayed){0, 0, 0, bytes, sent, lost, held};
}
