/* What fast_compose.c, fast_read.c and fast_refuse.c share. */
#ifndef FAST_INSIDE_H
#define FAST_INSIDE_H

#include <string.h>

#include "fast.h"

typedef struct {
    uint32_t length, tracks;
    uint32_t frame_time, crc, parity;
    const uint8_t *kinds;
    uint32_t used_1553, used_arinc; /* a bit for each bus */
    uint32_t rows;                  /* dealt words of a frame */
    uint32_t furniture;             /* frame time words of a group */
    uint32_t slots;                 /* data slots of a group */
    uint32_t label;                 /* the CRC word without its remainder */
    uint32_t fill;                  /* fill on its bus, without a parity bit */
    size_t group_bytes;
} fast_plan;

#define LIKELY(x) __builtin_expect(!!(x), 1)
#define UNLIKELY(x) __builtin_expect(!!(x), 0)
#define FILL 0x01AAAAu /* on bus 0 */
#define SYNC 0xFAF320u
#define SYNC_REMAINDER 0x2684u
#define GROUP_SLOTS_MAX 2040 /* 4 x 510 */

/* Notices that wait for their word (K2), a bit for each bus and channel, and whether one was shown open by a second. */
typedef struct {
    uint64_t waiting, open;
} notices;

static inline void on_notice(notices *n, uint32_t bus, uint32_t channel)
{
    uint64_t bit = UINT64_C(1) << (4 * bus + channel);
    n->open |= n->waiting & bit;
    n->waiting |= bit;
}

static inline void on_word(notices *n, uint32_t bus, uint32_t channel)
{
    n->waiting &= ~(UINT64_C(1) << (4 * bus + channel));
}

extern uint16_t crc_tables[6][256]; /* [n]: a byte with n bytes behind it */

static inline vin_answer refused(uint32_t number, uint64_t place)
{
    vin_answer a = {number, place, 0, 0, 0};
    return a;
}

/* K8: 13, and the first word of the item that broke. */
static inline vin_answer broken(uint64_t place, uint64_t first_word)
{
    vin_answer a = {13, place, first_word, 0, 0};
    return a;
}

int fast_plan_of(fast_plan *p, uint32_t words, uint32_t tracks, uint32_t frame_time, uint32_t crc, uint32_t parity, uint32_t crc_label,
                 uint32_t fill_bus, const uint8_t *kinds, size_t kinds_len);

/* The quick ways only find out that something is wrong; these find out what, and where. */
vin_answer refuse_log(const fast_plan *p, const uint8_t *log, size_t log_len);
vin_answer refuse_capture(const fast_plan *p, const uint8_t *capture, size_t capture_len, int closed);
vin_answer refuse_frames(const fast_plan *p, const uint8_t *capture, size_t groups);
/* Of a group by itself: 9 to 12, then 13 with these words held before it, the first of them at this place. Places count the group's words. */
vin_answer refuse_group_words(const fast_plan *p, const uint8_t *group, const uint32_t *held, size_t held_len, size_t first);
vin_answer refuse_words(const fast_plan *p, const uint32_t *row, size_t row_len);

/* The remainder after one word, and after two: a byte's share of it is looked up for each. */
static inline uint32_t crc_one(uint32_t r, uint32_t w)
{
    uint32_t x = r ^ w >> 8;
    return crc_tables[2][x >> 8] ^ crc_tables[1][x & 255] ^ crc_tables[0][w & 255];
}

static inline uint32_t crc_two(uint32_t r, uint32_t v, uint32_t w)
{
    uint32_t x = r ^ v >> 8;
    return crc_tables[5][x >> 8] ^ crc_tables[4][x & 255] ^
           (crc_tables[3][v & 255] ^ crc_tables[2][w >> 16] ^ crc_tables[1][w >> 8 & 255] ^ crc_tables[0][w & 255]);
}

static inline uint32_t with_parity(uint32_t w)
{
    return w | (uint32_t)(__builtin_parity(w) ^ 1) << 23;
}

static inline uint64_t load64(const uint8_t *b)
{
    uint64_t v;
    memcpy(&v, b, 8);
    return __builtin_bswap64(v);
}

static inline void store64(uint8_t *b, uint64_t v)
{
    v = __builtin_bswap64(v);
    memcpy(b, &v, 8);
}

static inline uint32_t load24(const uint8_t *b)
{
    return (uint32_t)b[0] << 16 | (uint32_t)b[1] << 8 | b[2];
}

static inline void store24(uint8_t *b, uint32_t w)
{
    b[0] = (uint8_t)(w >> 16);
    b[1] = (uint8_t)(w >> 8);
    b[2] = (uint8_t)w;
}

/* Four bytes at once: the fourth belongs to the next word, which is written later. */
static inline void store24_and_one(uint8_t *b, uint32_t w)
{
    w = __builtin_bswap32(w << 8);
    memcpy(b, &w, 4);
}

/* Four bytes at once, of which three are used. */
static inline uint32_t load24_of_four(const uint8_t *b)
{
    uint32_t w;
    memcpy(&w, b, 4);
    return __builtin_bswap32(w) >> 8;
}

#endif
