/* What is wrong, and where: walked word by word, once the quick way has found that something is. */
#include <stdlib.h>

#include "fast_inside.h"

/* ==== A log ==== */

static uint64_t bits_at(const uint8_t *log, size_t bit, uint32_t width)
{
    uint64_t value = 0;
    for (; width > 0; width--, bit++)
        value = value << 1 | (log[bit >> 3] >> (7 - (bit & 7)) & 1u);
    return value;
}

/* K2: the first bit of the earliest open notice, of a log that has no other fault. An item that is no notice and no ARINC word has the
 * channel 4. */
typedef struct {
    size_t bit, behind;
    uint32_t kind, key;
} stands;

static stands item_at(const uint8_t *log, size_t bit)
{
    static const uint8_t shortest[16] = {4, 26, 26, 25, 25, 43, 18, 25, 24, 0};
    uint32_t kind = (uint32_t)bits_at(log, bit, 4), flag;
    stands s = {bit, bit, kind, 0};
    if (kind == 0)
        return s;
    flag = kind <= 2 ? (uint32_t)bits_at(log, bit + 9, 1) : kind == 5 ? (uint32_t)bits_at(log, bit + 10, 1) : 0;
    s.behind = bit + shortest[kind] + (!flag ? 0u : kind == 2 ? 14u : 46u);
    s.key = kind == 5 || kind == 6 ? (uint32_t)bits_at(log, bit + 4, 6) : 64;
    return s;
}

static vin_answer open_in_log(const uint8_t *log)
{
    for (stands s = item_at(log, 0); s.kind != 0; s = item_at(log, s.behind)) {
        stands t = s;
        if (s.kind != 6)
            continue;
        do
            t = item_at(log, t.behind);
        while (t.kind != 0 && t.key != s.key);
        if (t.kind != 5)
            return refused(15, s.bit);
    }
    abort(); /* the quick way refused what has no fault */
}

vin_answer refuse_log(const fast_plan *p, const uint8_t *log, size_t log_len)
{
    static const uint8_t shortest[16] = {4, 26, 26, 25, 25, 43, 18, 25, 24, 0};
    size_t bit = 0, end = 8 * log_len;
    for (;;) {
        uint32_t kind, bus, flag, allowed;
        size_t whole;
        if (end - bit < 4)
            return refused(2, bit);
        kind = (uint32_t)bits_at(log, bit, 4);
        if (kind == 0 && end - bit < 12 && bits_at(log, bit, (uint32_t)(end - bit)) == 0)
            return open_in_log(log);
        if (kind == 0 || kind > 8 || end - bit < shortest[kind])
            return refused(2, bit);
        bus = (uint32_t)bits_at(log, bit + 4, 4);
        flag = kind <= 2 ? (uint32_t)bits_at(log, bit + 9, 1) : kind == 5 ? (uint32_t)bits_at(log, bit + 10, 1) : 0;
        whole = shortest[kind] + (!flag ? 0u : kind == 2 ? 14u : 46u);
        if (end - bit < whole)
            return refused(2, bit);
        allowed = kind <= 4 ? p->used_1553 : kind <= 6 ? p->used_arinc : p->used_1553 | p->used_arinc;
        if (!(allowed >> bus & 1))
            return refused(3, bit);
        if (flag && bits_at(log, bit + whole - 14, 14) >= 10000)
            return refused(4, bit);
        bit += whole;
    }
}

/* ==== A capture ==== */

static size_t place_of(const fast_plan *p, size_t group, size_t dealt)
{
    return group * p->tracks * p->length + dealt % p->tracks * p->length + 1 + dealt / p->tracks;
}

/* 9, 10 and 11 */
static vin_answer stored_fault(const fast_plan *p, const uint8_t *capture, size_t group)
{
    for (uint32_t track = 0; track < p->tracks; track++) {
        size_t first = (group * p->tracks + track) * p->length;
        uint32_t r = SYNC_REMAINDER;
        if (load24(capture + 3 * first) != SYNC)
            return refused(9, first);
        for (size_t n = first + 1; n < first + p->length; n++) {
            uint32_t w = load24(capture + 3 * n);
            if (p->parity && !__builtin_parity(w))
                return refused(10, n);
            if (p->crc && n == first + p->length - 1 && w != (p->parity ? with_parity(p->label | r) : (p->label | r)))
                return refused(11, n);
            r = crc_one(r, w);
        }
    }
    return refused(0, 0);
}

/* What the next word may be: `next` is bus and label it must have under `mask`, if any; `tag` the high time word it may be. */
typedef struct {
    uint32_t next, mask, tag;
    size_t first;
    uint64_t bits; /* of log */
} walker;

#define FREE 0xFFFFFFFFu

static int walk(walker *k, const fast_plan *p, uint32_t w, size_t place)
{
    uint32_t hi = w >> 16, bus = hi >> 4, label = hi & 15, information = w & 0xFFFF, kind = p->kinds[bus], tag = k->tag;
    k->tag = FREE;
    if (k->next != FREE) {
        if ((hi ^ k->next) & k->mask)
            return 0;
        k->next = FREE;
        if (label == 6)
            k->next = hi - 1, k->bits += 16;
        else if (label == 5)
            return k->bits += 14, information < 10000;
        else if (kind == 1)
            k->bits += 40;
        else
            k->tag = bus << 4 | 7, k->bits += 43;
        return 1;
    }
    if (hi == tag) {
        k->next = hi - 1, k->mask = 255, k->bits += 16;
        return 1;
    }
    k->first = place;
    if (kind == 0 || label == 1 || (label >= 5 && label <= 7))
        return 0;
    if (label == 0)
        return k->bits += 24, 1;
    if (label == 2 || label == 3)
        return k->bits += 25, 1;
    if (label == 4 && kind == 1) {
        k->next = bus << 4 | 14, k->mask = 255 - 4;
        return information < 10000;
    }
    if (label == 4)
        return k->bits += 18, information >> 12 == (information >> 8 & 15) + 1 && information >> 12 >= 9 && (information >> 12 & 1);
    if (kind == 2) {
        k->next = hi - 1, k->mask = 255;
        return label & 1;
    }
    if ((label & 3) == 3)
        k->tag = bus << 4 | 7;
    k->bits += (label & 3) >= 2 ? 26 : 25;
    return 1;
}

/* 12 */
static vin_answer time_fault(const fast_plan *p, const uint8_t *capture, size_t group)
{
    for (size_t dealt = 0; dealt < p->furniture; dealt++) {
        size_t place = place_of(p, group, dealt);
        uint32_t w = load24(capture + 3 * place) & (p->parity ? 0x7FFFFF : 0xFFFFFF);
        if (w >> 16 != 7 - dealt || (dealt == 2 && (w & 0xFFFF) >= 10000))
            return refused(12, place);
    }
    return refused(0, 0);
}

/* 13 */
static vin_answer data_fault(const fast_plan *p, const uint8_t *capture, size_t group, walker *k)
{
    for (size_t dealt = p->furniture; dealt < p->furniture + p->slots; dealt++) {
        size_t place = place_of(p, group, dealt);
        uint32_t w = load24(capture + 3 * place) & (p->parity ? 0x7FFFFF : 0xFFFFFF);
        size_t first_word = k->next != FREE ? k->first : place;
        if ((w & 0xFFFFF) != FILL && !walk(k, p, w, place))
            return broken(place, first_word);
    }
    return refused(0, 0);
}

static vin_answer misplaced_fill(const fast_plan *p, const uint8_t *capture, size_t groups)
{
    size_t end = 0, group_end;
    for (size_t n = 0; n < groups * p->slots; n++) {
        size_t place = place_of(p, n / p->slots, p->furniture + n % p->slots);
        if ((load24(capture + 3 * place) & 0xFFFFF) != FILL)
            end = n + 1;
    }
    group_end = (end + p->slots - 1) / p->slots * p->slots;
    for (size_t n = 0; n < groups * p->slots; n++) {
        size_t place = place_of(p, n / p->slots, p->furniture + n % p->slots);
        uint32_t w = load24(capture + 3 * place);
        if ((w & 0xFFFFF) == FILL && (n < end || n >= group_end || (w & (p->parity ? 0x7FFFFF : 0xFFFFFF)) != p->fill))
            return refused(14, place);
    }
    return refused(0, 0);
}

/* K2: bus, channel and whether it is a notice, of a data word, without its parity bit, among such as read as items; 0 if it begins
 * neither. */
static uint32_t begins_word(const fast_plan *p, uint32_t w)
{
    uint32_t label = w >> 16 & 15;
    if ((w & 0xFFFFF) == FILL || p->kinds[w >> 20] != 2)
        return 0;
    if (label == 4)
        return 256 | 128 | w >> 20 << 2 | (w >> 13 & 3);
    return label >= 9 && (label & 1) ? 256 | w >> 20 << 2 | (label >> 1 & 3) : 0;
}

static uint32_t begins(const fast_plan *p, const uint8_t *capture, size_t n, size_t *place)
{
    *place = place_of(p, n / p->slots, p->furniture + n % p->slots);
    return begins_word(p, load24(capture + 3 * *place) & (p->parity ? 0x7FFFFF : 0xFFFFFF));
}

static vin_answer open_in_capture(const fast_plan *p, const uint8_t *capture, size_t groups)
{
    for (size_t n = 0; n < groups * p->slots; n++) {
        size_t place, other, m = n;
        uint32_t notice = begins(p, capture, n, &place), then = 0;
        if (!(notice & 128))
            continue;
        while (++m < groups * p->slots && ((then = begins(p, capture, m, &other)) | 128) != notice)
            ;
        if (m == groups * p->slots || then == notice)
            return refused(15, place);
    }
    return refused(0, 0);
}

/* Nothing is wrong but the length of the log of so many bits. */
static vin_answer too_long(uint64_t bits)
{
    if ((bits + 7) / 8 <= VIN_LOG_MAX)
        abort(); /* the quick way refused what has no fault */
    return refused(6, (bits + 7) / 8);
}

vin_answer refuse_capture(const fast_plan *p, const uint8_t *capture, size_t capture_len, int closed)
{
    walker k = {FREE, 0, FREE, 0, 0};
    size_t groups = capture_len / p->group_bytes;
    vin_answer a;
    for (size_t group = 0; group < groups; group++) {
        a = stored_fault(p, capture, group);
        if (a.number == 0)
            a = time_fault(p, capture, group);
        if (a.number == 0)
            a = data_fault(p, capture, group, &k);
        if (a.number != 0)
            return a;
    }
    if (k.next != FREE)
        return broken(k.first, k.first);
    a = open_in_capture(p, capture, groups);
    if (a.number != 0)
        return a;
    if (closed) {
        a = misplaced_fill(p, capture, groups);
        if (a.number != 0)
            return a;
    }
    return too_long(k.bits + 4);
}

/* ==== The halves of a reading ==== */

/* 9 to 12 alone. */
vin_answer refuse_frames(const fast_plan *p, const uint8_t *capture, size_t groups)
{
    for (size_t group = 0; group < groups; group++) {
        vin_answer a = stored_fault(p, capture, group);
        if (a.number == 0)
            a = time_fault(p, capture, group);
        if (a.number != 0)
            return a;
    }
    abort(); /* the quick way refused what has no fault */
}

vin_answer refuse_group_words(const fast_plan *p, const uint8_t *group, const uint32_t *held, size_t held_len, size_t first)
{
    walker k = {FREE, 0, FREE, 0, 0};
    vin_answer a = stored_fault(p, group, 0);
    if (a.number == 0)
        a = time_fault(p, group, 0);
    for (size_t n = 0; a.number == 0 && n < held_len; n++)
        walk(&k, p, held[n], first);
    if (a.number == 0)
        a = data_fault(p, group, 0, &k);
    if (a.number == 0)
        abort(); /* the quick way refused what has no fault */
    return a;
}

static vin_answer open_in_row(const fast_plan *p, const uint32_t *row, size_t row_len)
{
    size_t waits[64] = {0}, open = SIZE_MAX;
    for (size_t n = 0; n < row_len; n++) {
        uint32_t begun = begins_word(p, row[n] & (p->parity ? 0x7FFFFF : 0xFFFFFF)), key = begun & 63;
        if (begun == 0)
            continue;
        if ((begun & 128) && waits[key] != 0 && waits[key] - 1 < open)
            open = waits[key] - 1;
        waits[key] = begun & 128 ? n + 1 : 0;
    }
    for (uint32_t key = 0; key < 64; key++)
        if (waits[key] != 0 && waits[key] - 1 < open)
            open = waits[key] - 1;
    return open == SIZE_MAX ? refused(0, 0) : refused(15, open);
}

vin_answer refuse_words(const fast_plan *p, const uint32_t *row, size_t row_len)
{
    walker k = {FREE, 0, FREE, 0, 0};
    vin_answer a;
    for (size_t n = 0; n < row_len; n++) {
        size_t first_word = k.next != FREE ? k.first : n;
        uint32_t w = row[n] & (p->parity ? 0x7FFFFF : 0xFFFFFF);
        if (row[n] > 0xFFFFFF || ((w & 0xFFFFF) != FILL && !walk(&k, p, w, n)))
            return broken(n, first_word);
    }
    if (k.next != FREE)
        return broken(k.first, k.first);
    a = open_in_row(p, row, row_len);
    if (a.number != 0)
        return a;
    return too_long(k.bits + 4);
}
