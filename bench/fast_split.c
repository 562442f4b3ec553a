/* The halves of a reading for speed (K3). The words: a pass that checks, then one that deals. The items: words drawn together without
 * fill and parity bits, a stretch at a time, and taken as fast_read.c takes them. */
#include "fast_reading.h"

/* 9 to 12, and the frame times; false if anything is wrong. */
static inline __attribute__((always_inline)) int check_groups(const fast_plan *p, const uint8_t *capture, size_t groups, uint64_t *times,
                                                              const int crc, const int parity)
{
    uint32_t dealt[GROUP_SLOTS_MAX + 4];
    for (size_t group = 0; group < groups; group++) {
        for (uint32_t track = 0; track < p->tracks; track++, capture += 3 * p->length)
            if (!read_frame(capture, dealt + track, p->tracks, p->rows, p->label, crc, parity))
                return 0;
        if (p->furniture && !frame_time_of(dealt, &times[group]))
            return 0;
    }
    return 1;
}

/* The words of the data slots as stored. A track's frame time words are its first rows. */
static void deal_words(const fast_plan *p, const uint8_t *capture, size_t groups, uint32_t *out)
{
    for (size_t group = 0; group < groups; group++, out += p->slots)
        for (uint32_t track = 0; track < p->tracks; track++, capture += 3 * p->length) {
            uint32_t row = p->furniture > track ? (p->furniture - track + p->tracks - 1) / p->tracks : 0;
            uint32_t *to = out + row * p->tracks + track - p->furniture;
            for (; row < p->rows; row++, to += p->tracks)
                *to = load24(capture + 3 * (row + 1));
        }
}

vin_answer fast_read_words(uint32_t words, uint32_t tracks, uint32_t frame_time, uint32_t crc, uint32_t parity, uint32_t crc_label,
                           uint32_t fill_bus, const uint8_t *kinds, size_t kinds_len, const uint8_t *capture, size_t capture_len,
                           uint32_t *words_out, size_t words_out_len, uint8_t *times, size_t times_len)
{
    fast_plan p;
    uint64_t read_times[VIN_READ_GROUPS_MAX];
    size_t groups, needed;
    int good;
    if (!fast_plan_of(&p, words, tracks, frame_time, crc, parity, crc_label, fill_bus, kinds, kinds_len))
        return refused(1, 0);
    if (capture_len > VIN_CAPTURE_MAX || capture_len % p.group_bytes != 0)
        return refused(8, capture_len);
    groups = capture_len / p.group_bytes;
    if (crc)
        good = parity ? check_groups(&p, capture, groups, read_times, 1, 1) : check_groups(&p, capture, groups, read_times, 1, 0);
    else
        good = parity ? check_groups(&p, capture, groups, read_times, 0, 1) : check_groups(&p, capture, groups, read_times, 0, 0);
    if (UNLIKELY(!good))
        return refuse_frames(&p, capture, groups);
    if (words_out_len < groups * p.slots)
        return refused(6, groups * p.slots);
    needed = frame_time ? groups : 0;
    if (times_len / 8 < needed)
        return refused(7, needed);
    deal_words(&p, capture, groups, words_out);
    for (size_t n = 0; n < needed; n++)
        store64(times + 8 * n, read_times[n]);
    return (vin_answer){0, 0, 0, groups * p.slots, needed};
}

/* Takes all items of a row; false if anything is wrong. */
static int take_row(const fast_plan *p, const uint32_t *row, size_t row_len, writer *log)
{
    uint32_t data[4 + GROUP_SLOTS_MAX + 8], mask = p->parity ? 0x7FFFFF : 0xFFFFFF;
    size_t held = 0;
    notices notes = {0, 0};
    for (size_t at = 0; at < row_len;) {
        size_t end = row_len - at > GROUP_SLOTS_MAX ? at + GROUP_SLOTS_MAX : row_len, count = held, taken, stop;
        uint32_t all = 0;
        for (; at < end; at++) {
            uint32_t w = row[at];
            all |= w;
            data[count] = w & mask;
            count += (w & 0xFFFFF) != FILL;
        }
        stop = at == row_len ? count : count < 4 ? 0 : count - 4;
        if (at == row_len)
            data[count] = data[count + 1] = data[count + 2] = data[count + 3] = NO_WORD;
        if (all > 0xFFFFFF)
            return 0;
        taken = take_items(p->kinds, data, stop, log, &notes);
        if (taken == (size_t)-1 || log->bits > 8 * VIN_LOG_MAX - 4)
            return 0;
        held = count - taken;
        memmove(data, data + taken, held * sizeof *data);
    }
    return (notes.waiting | notes.open) == 0;
}

vin_answer fast_read_items(uint32_t words, uint32_t tracks, uint32_t frame_time, uint32_t crc, uint32_t parity, uint32_t crc_label,
                           uint32_t fill_bus, const uint8_t *kinds, size_t kinds_len, const uint32_t *words_in, size_t words_in_len,
                           uint8_t *log, size_t log_len)
{
    fast_plan p;
    uint8_t made[VIN_LOG_MAX + 8192]; /* a stretch more than a log may have, which is then seen */
    writer w = {made, 0, 0};
    size_t bytes;
    if (!fast_plan_of(&p, words, tracks, frame_time, crc, parity, crc_label, fill_bus, kinds, kinds_len))
        return refused(1, 0);
    if (words_in_len > VIN_WORDS_MAX)
        return refused(8, words_in_len);
    if (UNLIKELY(!take_row(&p, words_in, words_in_len, &w)))
        return refuse_words(&p, words_in, words_in_len);
    put(&w, 0, 4);
    bytes = (w.bits + 7) / 8;
    if (bytes > log_len)
        return refused(6, bytes);
    memcpy(log, made, bytes);
    return (vin_answer){0, 0, 0, bytes, 0};
}
