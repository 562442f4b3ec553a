/* What fast_read.c and the other readings share: frames laid out in dealt order, data words drawn together, items taken from them. */
#ifndef FAST_READING_H
#define FAST_READING_H

#include "fast_inside.h"

#define NO_WORD 0xFFFFFFFFu /* behind the last data word: no bus and label are like it */

/* ==== Items ==== */

enum take { ONE, COMMAND, SYLLABLE, RESPONSE, WRONG };

/* How an item begins, by the bus's kind and the label. An item of one word is base, bus and information, moved together. */
typedef struct {
    uint8_t take, bits, bus_shift;
    uint32_t base, mask;
} start;

#define ITEM(take, kind, more, bits) {take, bits, (bits) - 8, (uint32_t)(kind) << ((bits) - 4) | (uint32_t)(more) << 16, 0xFFFF}
#define BAD {WRONG, 0, 0, 0, 0}

static const start starts[3][16] = {
    {BAD, BAD, BAD, BAD, BAD, BAD, BAD, BAD, BAD, BAD, BAD, BAD, BAD, BAD, BAD, BAD},
    {ITEM(ONE, 8, 0, 24), BAD, ITEM(ONE, 7, 0, 25), ITEM(ONE, 7, 1, 25), ITEM(RESPONSE, 0, 0, 26), BAD, BAD, BAD,
     ITEM(ONE, 4, 1, 25), ITEM(ONE, 3, 1, 25), ITEM(ONE, 2, 2, 26), ITEM(COMMAND, 1, 2, 26),
     ITEM(ONE, 4, 0, 25), ITEM(ONE, 3, 0, 25), ITEM(ONE, 2, 0, 26), ITEM(COMMAND, 1, 0, 26)},
    {ITEM(ONE, 8, 0, 24), BAD, ITEM(ONE, 7, 0, 25), ITEM(ONE, 7, 1, 25), {ONE, 18, 10, 6u << 14, 0xFF}, BAD, BAD, BAD,
     BAD, ITEM(SYLLABLE, 0, 0, 26), BAD, ITEM(SYLLABLE, 0, 0, 26), BAD, ITEM(SYLLABLE, 0, 0, 26), BAD, ITEM(SYLLABLE, 0, 0, 26)},
};

typedef struct {
    uint8_t *bytes;
    size_t bits;
    uint64_t part; /* the bits of the last byte that is not full, at the top */
} writer;

/* Puts up to 56 bits. */
static inline void put(writer *w, uint64_t value, uint32_t bits)
{
    uint32_t have = w->bits & 7;
    uint64_t v = w->part | value << (64 - bits - have);
    store64(w->bytes + (w->bits >> 3), v);
    w->part = v << ((have + bits) & 0x78);
    w->bits += bits;
}

/* The tag at three words, on the bus of its item; ~0 if it is none. */
static inline uint64_t tag(const uint32_t *w, uint32_t bus_7)
{
    uint32_t micro = w[2] & 0xFFFF;
    if (w[1] >> 16 != bus_7 - 1 || w[2] >> 16 != bus_7 - 2 || micro >= 10000)
        return ~UINT64_C(0);
    return (uint64_t)(w[0] & 0xFFFF) << 30 | (uint64_t)(w[1] & 0xFFFF) << 14 | micro;
}

/* Takes the items that begin before `stop`. Returns how many words they had, or 0 - 1 if a word is wrong. */
static inline size_t take_items(const uint8_t *kinds, const uint32_t *data, size_t stop, writer *to, notices *seen)
{
    writer w = *to;
    notices notes = *seen;
    size_t n = 0;
    while (n < stop) {
        uint32_t word = data[n], bus = word >> 20, information = word & 0xFFFF;
        const start *s = &starts[kinds[bus]][word >> 16 & 15];
        uint32_t bus_7 = bus << 4 | 7;
        uint64_t value = s->base | (uint64_t)bus << s->bus_shift | (information & s->mask);
        if (s->take == ONE) {
            /* a notice's labels are one channel's pair: 98, BA, DC or FE; its channel is two bits of them */
            if (s->bits == 18) {
                uint32_t pair = information >> 8, channel = (pair >> 5) & 3;
                if (pair != 0x98 + 0x22 * channel)
                    return (size_t)-1;
                value |= channel << 8;
                on_notice(&notes, bus, channel);
            }
            put(&w, value, s->bits);
            n += 1;
        } else if (s->take == COMMAND) {
            n += 1;
            if (data[n] >> 16 == bus_7) {
                uint64_t t = tag(data + n, bus_7);
                if (UNLIKELY(t == ~UINT64_C(0)))
                    return (size_t)-1;
                put(&w, value | 1 << 16, 26);
                put(&w, t, 46);
                n += 3;
            } else {
                put(&w, value, 26);
            }
        } else if (s->take == SYLLABLE) {
            uint32_t low = data[n + 1];
            if (UNLIKELY(low >> 16 != (word >> 16) - 1))
                return (size_t)-1;
            value = (uint64_t)(5 << 4 | bus) << 35 | (uint64_t)(word >> 17 & 3) << 33 | (uint64_t)information << 16 | (low & 0xFFFF);
            on_word(&notes, bus, word >> 17 & 3);
            n += 2;
            if (data[n] >> 16 == bus_7) {
                uint64_t t = tag(data + n, bus_7);
                if (UNLIKELY(t == ~UINT64_C(0)))
                    return (size_t)-1;
                put(&w, value | UINT64_C(1) << 32, 43);
                put(&w, t, 46);
                n += 3;
            } else {
                put(&w, value, 43);
            }
        } else if (s->take == RESPONSE) {
            uint32_t status = data[n + 1];
            if (UNLIKELY(information >= 10000 || ((status >> 16) | 4) != (bus << 4 | 14)))
                return (size_t)-1;
            value = (uint64_t)(2 << 4 | bus) << 32 | (uint64_t)(~status >> 18 & 1) << 31 | UINT64_C(1) << 30 |
                    (uint64_t)(status & 0xFFFF) << 14 | information;
            put(&w, value, 40);
            n += 2;
        } else {
            return (size_t)-1;
        }
    }
    *to = w;
    *seen = notes;
    return n;
}

/* ==== Frames ==== */

/* Checks a frame and lays its words out in dealt order, without parity bits. */
static inline __attribute__((always_inline)) int read_frame(const uint8_t *b, uint32_t *dealt, uint32_t tracks, uint32_t rows,
                                                            uint32_t label, const int crc, const int parity)
{
    uint32_t r = SYNC_REMAINDER, odd = 1, n = 0, four = crc ? rows : rows - 1; /* words with a byte behind them */
    if (load24(b) != SYNC)
        return 0;
    b += 3;
    for (; n + 2 <= four; n += 2, b += 6) {
        uint32_t v = load24_of_four(b), w = load24_of_four(b + 3);
        if (crc)
            r = crc_two(r, v, w);
        if (parity) {
            odd &= (uint32_t)__builtin_parity(v) & (uint32_t)__builtin_parity(w);
            v &= 0x7FFFFF;
            w &= 0x7FFFFF;
        }
        dealt[0] = v;
        dealt[tracks] = w;
        dealt += 2 * tracks;
    }
    for (; n < rows; n++, b += 3) {
        uint32_t w = load24(b);
        if (crc)
            r = crc_one(r, w);
        if (parity) {
            odd &= (uint32_t)__builtin_parity(w);
            w &= 0x7FFFFF;
        }
        *dealt = w;
        dealt += tracks;
    }
    if (crc && load24(b) != (parity ? with_parity(label | r) : (label | r)))
        return 0;
    return odd != 0;
}

/* The group's data words, drawn together: fill is left out. */
static inline size_t draw_together(const uint32_t *slot, size_t slots, uint32_t *data)
{
    size_t n = 0;
    for (size_t i = 0; i < slots; i++) {
        data[n] = slot[i];
        n += (slot[i] & 0xFFFFF) != FILL;
    }
    return n;
}

static inline int frame_time_of(const uint32_t *dealt, uint64_t *time)
{
    uint32_t micro = dealt[2] & 0xFFFF;
    if (dealt[0] >> 16 != 7 || dealt[1] >> 16 != 6 || dealt[2] >> 16 != 5 || micro >= 10000)
        return 0;
    *time = UINT64_C(10000) * ((uint64_t)(dealt[0] & 0xFFFF) << 16 | (dealt[1] & 0xFFFF)) + micro;
    return 1;
}

#endif
