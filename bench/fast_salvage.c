/* Salvage for speed (K10). As fast_read.c reads, a group at a time; a stretch of words in which one is wrong is taken again item by item,
 * and so are the words that are held when a dropped group or the end comes. What is dropped is noted in 32 bits each, so that nothing lent
 * is written before every room is judged. */
#include "fast_reading.h"

#define LOG_BITS (8 * (size_t)VIN_LOG_MAX)

/* What stands behind the words at hand. */
enum behind { MORE_WORDS, A_DROPPED_GROUP, THE_END };

typedef struct {
    const fast_plan *p;
    writer log;
    size_t over;     /* bits beyond the limit, which are counted and not kept */
    uint32_t *noted; /* a word: its group x 2048 + its dealt number; a group: its fault's number x 2^24 + its index */
    size_t entries, kept;
    uint64_t *times;
    uint32_t data[4 + GROUP_SLOTS_MAX + 8], numbers[4 + GROUP_SLOTS_MAX + 8];
    size_t count;
} salvage;

/* The data words of a group, drawn together behind those held, each with its number. */
static inline void draw_numbered(salvage *s, const uint32_t *slot, uint32_t number)
{
    size_t n = s->count;
    for (size_t i = 0; i < s->p->slots; i++, number++) {
        s->data[n] = slot[i];
        s->numbers[n] = number;
        n += (slot[i] & 0xFFFFF) != FILL;
    }
    s->count = n;
}

/* The words of the item that breaks off, from its first one on; 1 for a word that starts none. */
static size_t broken_words(const fast_plan *p, const uint32_t *w)
{
    uint32_t bus = w[0] >> 20, take = starts[p->kinds[bus]][w[0] >> 16 & 15].take;
    size_t n = take == SYLLABLE ? 2 : 1;
    if (take != COMMAND && (take != SYLLABLE || w[1] >> 16 != (w[0] >> 16) - 1))
        return 1;
    return w[n + 1] >> 16 == (bus << 4 | 6) ? n + 2 : n + 1;
}

/* The words of a command or an ARINC word that is the last data, without a tag; 0 if there is none here. */
static size_t last_words(const fast_plan *p, const uint32_t *w, size_t left)
{
    uint32_t take = starts[p->kinds[w[0] >> 20]][w[0] >> 16 & 15].take;
    if (take == COMMAND && left == 1)
        return 1;
    return take == SYLLABLE && left == 2 && w[1] >> 16 == (w[0] >> 16) - 1 ? 2 : 0;
}

/* Item by item. */
static size_t take_one_by_one(salvage *s, size_t stop, enum behind behind)
{
    notices any = {0, 0};
    size_t n = 0;
    while (n < stop) {
        size_t dropped = behind == A_DROPPED_GROUP ? last_words(s->p, s->data + n, s->count - n) : 0;
        size_t taken = dropped > 0 ? 0 : take_items(s->p->kinds, s->data + n, 1, &s->log, &any);
        if (taken == (size_t)-1)
            dropped = broken_words(s->p, s->data + n), taken = 0;
        for (; dropped > 0; dropped--, n++)
            s->noted[s->entries++] = s->numbers[n];
        n += taken;
    }
    return n;
}

/* Takes what can be taken of the words at hand, and holds the rest. */
static inline void take_words(salvage *s, enum behind behind)
{
    notices any = {0, 0};
    size_t stop = behind != MORE_WORDS ? s->count : s->count < 4 ? 0 : s->count - 4, taken = (size_t)-1;
    if (behind == MORE_WORDS)
        taken = take_items(s->p->kinds, s->data, stop, &s->log, &any);
    else
        memset(s->data + s->count, 0xFF, 4 * sizeof *s->data); /* NO_WORD */
    if (taken == (size_t)-1)
        taken = take_one_by_one(s, stop, behind);
    s->count -= taken;
    memmove(s->data, s->data + taken, s->count * sizeof *s->data);
    memmove(s->numbers, s->numbers + taken, s->count * sizeof *s->numbers);
    if (UNLIKELY(s->log.bits > LOG_BITS)) {
        s->over += s->log.bits - LOG_BITS;
        s->log.bits = LOG_BITS;
        s->log.part = 0;
    }
}

static inline __attribute__((always_inline)) void salvage_groups(salvage *s, const uint8_t *capture, size_t groups, const int crc,
                                                                 const int parity)
{
    const fast_plan *p = s->p;
    uint32_t dealt[GROUP_SLOTS_MAX + 4];
    for (size_t group = 0; group < groups; group++, capture += p->group_bytes) {
        int good = 1;
        for (uint32_t track = 0; good && track < p->tracks; track++)
            good = read_frame(capture + 3 * track * p->length, dealt + track, p->tracks, p->rows, p->label, crc, parity);
        if (UNLIKELY(!good || (p->furniture && !frame_time_of(dealt, &s->times[s->kept])))) {
            take_words(s, A_DROPPED_GROUP);
            s->noted[s->entries++] = refuse_frames(p, capture, 1).number << 24 | (uint32_t)group;
            continue;
        }
        s->kept++;
        draw_numbered(s, dealt + p->furniture, (uint32_t)group << 11 | p->furniture);
        take_words(s, MORE_WORDS);
    }
    take_words(s, THE_END);
}

static void put_report(const salvage *s, uint64_t *report)
{
    const fast_plan *p = s->p;
    for (size_t n = 0; n < s->entries; n++) {
        uint32_t v = s->noted[n], group = v >> 11, dealt = v & 2047;
        if (v >> 24 != 0)
            report[n] = (uint64_t)(v >> 24) << 32 | (v & 0xFFFFFF);
        else
            report[n] = (group * p->tracks + dealt % p->tracks) * p->length + dealt / p->tracks + 1;
    }
}

static vin_salvaged refused_by(uint32_t number, uint64_t place)
{
    return (vin_salvaged){number, place, 0, 0, 0, 0};
}

vin_salvaged fast_salvage(uint32_t words, uint32_t tracks, uint32_t frame_time, uint32_t crc, uint32_t parity, uint32_t crc_label,
                          uint32_t fill_bus, const uint8_t *kinds, size_t kinds_len, const uint8_t *capture, size_t capture_len,
                          uint8_t *log, size_t log_len, uint8_t *times, size_t times_len, uint64_t *report, size_t report_len)
{
    fast_plan p;
    uint8_t made[VIN_LOG_MAX + 8192];
    uint32_t noted[VIN_WORDS_MAX];
    uint64_t read_times[VIN_READ_GROUPS_MAX + 1];
    salvage s;
    size_t groups, bytes, needed;
    if (!fast_plan_of(&p, words, tracks, frame_time, crc, parity, crc_label, fill_bus, kinds, kinds_len))
        return refused_by(1, 0);
    if (capture_len > VIN_CAPTURE_MAX || capture_len % p.group_bytes != 0)
        return refused_by(8, capture_len);
    groups = capture_len / p.group_bytes;
    s.p = &p;
    s.log = (writer){made, 0, 0};
    s.noted = noted;
    s.times = read_times;
    s.over = s.entries = s.kept = s.count = 0;
    if (crc)
        parity ? salvage_groups(&s, capture, groups, 1, 1) : salvage_groups(&s, capture, groups, 1, 0);
    else
        parity ? salvage_groups(&s, capture, groups, 0, 1) : salvage_groups(&s, capture, groups, 0, 0);
    put(&s.log, 0, 4);
    bytes = (s.log.bits + s.over + 7) / 8;
    if (bytes > VIN_LOG_MAX || bytes > log_len)
        return refused_by(6, bytes);
    needed = frame_time ? s.kept : 0;
    if (times_len / 8 < needed)
        return refused_by(7, needed);
    if (report_len < s.entries)
        return refused_by(20, s.entries);
    memcpy(log, made, bytes);
    for (size_t n = 0; n < needed; n++)
        store64(times + 8 * n, read_times[n]);
    put_report(&s, report);
    return (vin_salvaged){0, 0, 0, bytes, needed, s.entries};
}
