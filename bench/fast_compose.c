/* Composing for speed: one pass over the log makes the words, one pass over the words makes the frames. */
#include "fast_inside.h"

#define WORDS_MAX 14726

/* How an item begins: by its kind and the three bits behind its bus. Its first two words are cut out of the item's first 64 bits. */
typedef struct {
    uint32_t base_0, base_1; /* label and fixed information */
    uint32_t mask_0;
    uint8_t shift_0, shift_1;
    uint8_t bits, words;     /* before the tag */
    uint8_t whole, all;      /* with it */
    uint8_t tagged, timed;
} shape;

static shape shapes[128];
uint16_t crc_tables[6][256];

static shape one_word(uint32_t label, uint32_t bits, uint32_t shift)
{
    shape s = {label << 16, 0, 0xFFFF, (uint8_t)shift, 0, (uint8_t)bits, 1, 0, 0, 0, 0};
    return s;
}

static shape shape_of(uint32_t kind, uint32_t bits)
{
    static const uint32_t label_a[] = {0, 15, 14, 13, 12};
    uint32_t b = bits >> 2, flag = bits >> 1 & 1, channel = bits >> 1;
    shape s = {0, 0, 0, 0, 0, 0, 0, 0, 0, 0, 0};
    switch (kind) {
    case 1: case 2:
        s = one_word(label_a[kind] - 4 * b, 26, 38);
        if (kind == 1)
            s.tagged = (uint8_t)flag;
        else if (flag)
            s = (shape){4 << 16, (14 - 4 * b) << 16, 0x3FFF, 24, 38, 40, 2, 0, 0, 0, 1};
        break;
    case 3: case 4: s = one_word(label_a[kind] - 4 * b, 25, 39); break;
    case 5: s = (shape){(9 + 2 * channel) << 16, (8 + 2 * channel) << 16, 0xFFFF, 37, 21, 43, 2, 0, 0, bits & 1, 0}; break;
    case 6: s = (shape){4 << 16 | (9 + 2 * channel) << 12 | (8 + 2 * channel) << 8, 0, 0xFF, 46, 0, 18, 1, 0, 0, 0, 0}; break;
    case 7: s = one_word(2 + b, 25, 39); break;
    case 8: s = one_word(0, 24, 40); break;
    }
    s.whole = (uint8_t)(s.bits + 46 * s.tagged);
    s.all = (uint8_t)(s.words + 3 * s.tagged);
    return s;
}

/* Fills the tables when the program is loaded. */
__attribute__((constructor)) static void fill_tables(void)
{
    for (uint32_t n = 0; n < 128; n++)
        shapes[n] = shape_of(n >> 3, n & 7);
    for (uint32_t byte = 0; byte < 256; byte++) {
        uint32_t r = byte << 8;
        for (int table = 0; table < 6; table++) {
            for (int bit = 0; bit < 8; bit++)
                r = r & 0x8000 ? (r << 1 ^ 0x8005) & 0xFFFF : r << 1;
            crc_tables[table][byte] = (uint16_t)r;
        }
    }
}

typedef struct {
    size_t bit, count;
    notices notes;
    int end; /* the kind at `bit` is no item that may stand there: the end mark, or a fault */
} parsed;

/* Makes the words of the items that begin before `stop`; the 24 bytes from there on can be read. */
static inline parsed parse(const fast_plan *p, const uint8_t *log, parsed at, size_t stop, uint32_t *words)
{
    const uint32_t either = p->used_1553 | p->used_arinc;
    const uint32_t allowed[16] = {0, p->used_1553, p->used_1553, p->used_1553, p->used_1553, p->used_arinc, p->used_arinc, either, either};
    size_t bit = at.bit, count = at.count;
    notices notes = at.notes;
    while (bit < stop) {
        uint64_t v = load64(log + (bit >> 3)) << (bit & 7), t;
        uint32_t kind = (uint32_t)(v >> 60), bus = v >> 56 & 15;
        uint32_t *w = words + count;
        const shape *s;
        uint32_t first, micro;
        size_t tag;
        if (UNLIKELY(!(allowed[kind] >> bus & 1)))
            return (parsed){bit, count, notes, 1};
        bus <<= 20;
        if (kind == 3) { /* runs of data words: the next one's bit does not wait for this one's kind */
            w[0] = bus | (13 - (v >> 53 & 4)) << 16 | (v >> 39 & 0xFFFF);
            bit += 25;
            count += 1;
            continue;
        }
        if (kind == 5) { /* with its tag, which counts if there is one */
            uint32_t label = 9 + 2 * (v >> 54 & 3), tagged = v >> 53 & 1;
            t = load64(log + ((bit + 43) >> 3)) << ((bit + 43) & 7);
            micro = t >> 18 & 0x3FFF;
            if (UNLIKELY(tagged & (micro >= 10000)))
                return (parsed){bit, count, notes, 1};
            on_word(&notes, bus >> 20, v >> 54 & 3);
            w[0] = bus | label << 16 | (v >> 37 & 0xFFFF);
            w[1] = bus | (label - 1) << 16 | (v >> 21 & 0xFFFF);
            w[2] = bus | 7 << 16 | (uint32_t)(t >> 48);
            w[3] = bus | 6 << 16 | (t >> 32 & 0xFFFF);
            w[4] = bus | 5 << 16 | micro;
            bit += 43 + (46 & -tagged);
            count += 2 + 3 * tagged;
            continue;
        }
        s = &shapes[v >> 60 << 3 | (v >> 53 & 7)];
        tag = bit + s->bits; /* what stands there is cut out, too; it counts if the item is tagged */
        t = load64(log + (tag >> 3)) << (tag & 7);
        first = (uint32_t)(v >> s->shift_0) & s->mask_0;
        micro = t >> 18 & 0x3FFF;
        if (UNLIKELY((s->timed & (first >= 10000)) | (s->tagged & (micro >= 10000))))
            return (parsed){bit, count, notes, 1};
        if (kind == 6)
            on_notice(&notes, bus >> 20, v >> 54 & 3);
        w[0] = bus | s->base_0 | first;
        w[1] = bus | s->base_1 | ((uint32_t)(v >> s->shift_1) & 0xFFFF);
        w += s->words;
        w[0] = bus | 7 << 16 | (uint32_t)(t >> 48);
        w[1] = bus | 6 << 16 | (t >> 32 & 0xFFFF);
        w[2] = bus | 5 << 16 | micro;
        bit += s->whole;
        count += s->all;
    }
    return (parsed){bit, count, notes, 0};
}

/* The whole log. The last bytes are read from a copy with room behind it. False if there is a fault or an open notice. */
static int parse_log(const fast_plan *p, const uint8_t *log, size_t log_len, uint32_t *words, size_t *count)
{
    uint8_t tail[64] = {0};
    parsed at = {0, 0, {0, 0}, 0};
    size_t first, bits;
    if (log_len > 24)
        at = parse(p, log, at, 8 * (log_len - 24), words);
    if (at.end)
        return 0; /* an end mark so far from the end is a fault, too */
    first = at.bit >> 3;
    if (first >= log_len)
        return 0;
    memcpy(tail, log + first, log_len - first);
    bits = 8 * (log_len - first);
    at.bit &= 7;
    at = parse(p, tail, at, bits, words);
    *count = at.count;
    if (!at.end || at.bit + 4 > bits || bits - at.bit - 4 >= 8 || (at.notes.waiting | at.notes.open) != 0)
        return 0;
    return load64(tail + (at.bit >> 3)) << (at.bit & 7) >> 48 == 0; /* the end mark, the filling, and the zero bytes behind */
}

/* ==== The frames ==== */

/* One frame: every `tracks`-th word of a group's dealt words. With `whole` three bytes are written for the last word, not four. */
static inline __attribute__((always_inline)) void write_frame(uint8_t *b, const uint32_t *dealt, uint32_t tracks, uint32_t rows,
                                                              uint32_t label, int whole, const int crc, const int parity)
{
    uint32_t r = SYNC_REMAINDER, n = 0, last = crc ? rows : rows - 1;
    store24_and_one(b, SYNC);
    b += 3;
    for (; n + 2 <= last; n += 2, b += 6) {
        uint32_t v = dealt[0], w = dealt[tracks];
        dealt += 2 * tracks;
        if (parity) {
            v = with_parity(v);
            w = with_parity(w);
        }
        if (crc)
            r = crc_two(r, v, w);
        store24_and_one(b, v);
        store24_and_one(b + 3, w);
    }
    if (n < last) {
        uint32_t w = parity ? with_parity(*dealt) : *dealt;
        dealt += tracks;
        if (crc)
            r = crc_one(r, w);
        store24_and_one(b, w);
        b += 3;
    }
    r = crc ? label | r : *dealt;
    if (parity)
        r = with_parity(r);
    if (whole)
        store24(b, r);
    else
        store24_and_one(b, r);
}

static inline __attribute__((always_inline)) void write_groups(const fast_plan *p, uint32_t *words, size_t groups, const uint8_t *times,
                                                               uint8_t *out, const int crc, const int parity)
{
    for (size_t group = 0; group < groups; group++) {
        uint32_t *dealt = words + group * p->slots - p->furniture;
        if (p->furniture) { /* over the last words of the group before, which are written already */
            uint64_t time = load64(times + 8 * group);
            uint64_t tens = time / 10000;
            dealt[0] = 7 << 16 | (uint32_t)(tens >> 16);
            dealt[1] = 6 << 16 | (tens & 0xFFFF);
            dealt[2] = 5 << 16 | (uint32_t)(time - 10000 * tens);
        }
        for (uint32_t track = 0; track < p->tracks; track++, out += 3 * p->length)
            write_frame(out, dealt + track, p->tracks, p->rows, p->label, group + 1 == groups && track + 1 == p->tracks, crc,
                        parity);
    }
}

vin_answer fast_compose_full(uint32_t words_of_frame, uint32_t tracks, uint32_t frame_time, uint32_t crc, uint32_t parity,
                             uint32_t crc_label, uint32_t fill_bus, const uint8_t *kinds, size_t kinds_len, const uint8_t *log,
                             size_t log_len, const uint8_t *times, size_t times_len, uint8_t *out, size_t out_len)
{
    fast_plan p;
    uint32_t buffer[3 + WORDS_MAX + GROUP_SLOTS_MAX + 16], *words = buffer + 3;
    size_t count = 0, groups, needed, bytes;
    if (!fast_plan_of(&p, words_of_frame, tracks, frame_time, crc, parity, crc_label, fill_bus, kinds, kinds_len))
        return refused(1, 0);
    if (log_len > VIN_LOG_MAX)
        return refused(2, 0);
    if (UNLIKELY(!parse_log(&p, log, log_len, words, &count)))
        return refuse_log(&p, log, log_len);
    groups = (count + p.slots - 1) / p.slots;
    needed = frame_time ? groups : 0;
    if (times_len != 8 * needed)
        return refused(5, needed);
    for (size_t n = 0; n < needed; n++)
        if (load64(times + 8 * n) >= VIN_TIME_LIMIT)
            return refused(5, n);
    bytes = groups * p.group_bytes;
    if (out_len < bytes)
        return refused(6, bytes);
    for (size_t n = count; n < groups * p.slots; n++)
        words[n] = p.fill;
    if (crc)
        parity ? write_groups(&p, words, groups, times, out, 1, 1) : write_groups(&p, words, groups, times, out, 1, 0);
    else
        parity ? write_groups(&p, words, groups, times, out, 0, 1) : write_groups(&p, words, groups, times, out, 0, 0);
    return (vin_answer){0, 0, 0, bytes, 0};
}

vin_answer fast_compose(uint32_t words, uint32_t tracks, uint32_t frame_time, uint32_t crc, uint32_t parity,
                        const uint8_t *kinds, size_t kinds_len, const uint8_t *log, size_t log_len,
                        const uint8_t *times, size_t times_len, uint8_t *out, size_t out_len)
{
    return fast_compose_full(words, tracks, frame_time, crc, parity, VIN_CRC_LABEL, VIN_FILL_BUS, kinds, kinds_len, log, log_len, times,
                             times_len, out, out_len);
}
