/* Pick and join for speed: picking copies each item's bits into a buffer of its own, since a fault may still come; joining walks both
 * logs and then copies the first as bytes and the second shifted, 64 bits at a time. */
#include "fast_walk.h"

/* ==== Pick ==== */

typedef struct {
    uint8_t *bytes;
    size_t bits;
    uint64_t part; /* the bits of the byte that is begun, at the top */
    uint32_t buses;
} picking;

static inline void put(picking *p, uint64_t value, uint32_t bits)
{
    uint32_t have = p->bits & 7;
    uint64_t v = p->part | value << (64 - bits - have);
    store64(p->bytes + (p->bits >> 3), v);
    p->part = v << ((have + bits) & 0x78);
    p->bits += bits;
}

static inline __attribute__((always_inline)) void pick_item(void *with, const uint8_t *log, size_t bit, uint64_t front, uint32_t bits)
{
    picking *p = with;
    if (!(p->buses >> (front >> 56 & 15) & 1))
        return;
    if (bits <= 57) {
        put(p, front >> (64 - bits), bits);
    } else { /* with its tag */
        size_t tag = bit + bits - 46;
        put(p, front >> (64 + 46 - bits), bits - 46);
        put(p, load64(log + (tag >> 3)) << (tag & 7) >> 18, 46);
    }
}

vin_answer fast_pick(const uint8_t *log, size_t log_len, uint16_t buses, uint8_t *out, size_t out_len)
{
    uint8_t made[VIN_LOG_MAX + 64];
    picking p = {made, 0, 0, buses};
    size_t bytes;
    if (UNLIKELY(walk_log(log, log_len, pick_item, &p) == SIZE_MAX))
        return refuse_log_alone(log, log_len);
    put(&p, 0, 4);
    bytes = (p.bits + 7) / 8;
    if (out_len < bytes)
        return refused(6, bytes);
    memcpy(out, made, bytes);
    return (vin_answer){0, 0, 0, bytes, 0};
}

/* ==== Join ==== */

static inline __attribute__((always_inline)) void pass_item(void *with, const uint8_t *log, size_t bit, uint64_t front, uint32_t bits)
{
    (void)with, (void)log, (void)bit, (void)front, (void)bits;
}

/* So many bytes, shifted by `shift` bits behind those that stand in the first byte. */
static void put_shifted(uint8_t *to, size_t to_len, const uint8_t *from, size_t from_len, uint32_t shift)
{
    uint64_t carry = (uint64_t)(shift ? to[0] & (0xFF00 >> shift) : 0) << 56;
    size_t n = 0;
    for (; n + 8 <= from_len; n += 8) {
        uint64_t v = load64(from + n);
        store64(to + n, carry | v >> shift);
        carry = shift ? v << (64 - shift) : 0;
    }
    for (; n < to_len; n++) {
        uint64_t v = n < from_len ? (uint64_t)from[n] << 56 : 0;
        to[n] = (uint8_t)((carry | v >> shift) >> 56);
        carry = shift ? v << (8 - shift) : 0;
    }
}

vin_answer fast_join(const uint8_t *first, size_t first_len, const uint8_t *second, size_t second_len, uint8_t *out, size_t out_len)
{
    size_t front = walk_log(first, first_len, pass_item, NULL), back, bytes;
    if (UNLIKELY(front == SIZE_MAX))
        return refuse_log_alone(first, first_len);
    back = walk_log(second, second_len, pass_item, NULL);
    if (UNLIKELY(back == SIZE_MAX))
        return refuse_log_alone(second, second_len);
    bytes = (front + back + 4 + 7) / 8;
    if (bytes > VIN_LOG_MAX || out_len < bytes)
        return refused(6, bytes);
    memcpy(out, first, (front + 7) / 8);
    put_shifted(out + front / 8, bytes - front / 8, second, second_len, front % 8);
    return (vin_answer){0, 0, 0, bytes, 0};
}
