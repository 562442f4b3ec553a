/* Reading for speed. Each group: its frames are checked and laid out in dealt order; data words are drawn together; items are taken
 * from them, as long as five words are there, or none follow. Anything wrong leaves for fast_refuse.c. */
#include "fast_reading.h"

#define LOG_BITS_MAX (8 * VIN_LOG_MAX)

/* A closed capture: data words come first, fill is on the plan's bus and only in the last group, which has a data word. */
static int fill_in_place(const uint32_t *slot, size_t slots, size_t data, int last, uint32_t fill)
{
    if (data == slots)
        return 1;
    if (!last || data == 0)
        return 0;
    for (size_t n = data; n < slots; n++)
        if (slot[n] != fill)
            return 0;
    return 1;
}

/* Reads all groups; false if anything is wrong, an open notice and the log too long included. */
static inline __attribute__((always_inline)) int read_groups(const fast_plan *p, const uint8_t *capture, size_t groups, int closed,
                                                             writer *log, uint64_t *times, const int crc, const int parity)
{
    uint32_t dealt[GROUP_SLOTS_MAX + 4], data[4 + GROUP_SLOTS_MAX + 8];
    size_t held = 0; /* words of the groups before */
    notices notes = {0, 0};
    for (size_t group = 0; group < groups; group++) {
        int last = group + 1 == groups;
        size_t count, taken, stop;
        for (uint32_t track = 0; track < p->tracks; track++, capture += 3 * p->length)
            if (!read_frame(capture, dealt + track, p->tracks, p->rows, p->label, crc, parity))
                return 0;
        if (p->furniture && !frame_time_of(dealt, &times[group]))
            return 0;
        count = draw_together(dealt + p->furniture, p->slots, data + held);
        if (closed && !fill_in_place(dealt + p->furniture, p->slots, count, last, p->fill))
            return 0;
        count += held;
        stop = last ? count : count < 4 ? 0 : count - 4;
        if (last)
            data[count] = data[count + 1] = data[count + 2] = data[count + 3] = NO_WORD;
        taken = take_items(p->kinds, data, stop, log, &notes);
        if (taken == (size_t)-1 || log->bits > LOG_BITS_MAX - 4)
            return 0;
        held = count - taken;
        memmove(data, data + taken, held * sizeof *data);
    }
    return (notes.waiting | notes.open) == 0;
}

static vin_answer reading(int closed, uint32_t words, uint32_t tracks, uint32_t frame_time, uint32_t crc, uint32_t parity,
                          uint32_t crc_label, uint32_t fill_bus, const uint8_t *kinds, size_t kinds_len, const uint8_t *capture, size_t capture_len,
                          uint8_t *log, size_t log_len, uint8_t *times, size_t times_len)
{
    fast_plan p;
    uint8_t made[VIN_LOG_MAX + 8192]; /* a group more than a log may have, which is then seen */
    uint64_t read_times[VIN_READ_GROUPS_MAX];
    writer w = {made, 0, 0};
    size_t groups, needed, bytes;
    int good;
    if (!fast_plan_of(&p, words, tracks, frame_time, crc, parity, crc_label, fill_bus, kinds, kinds_len))
        return refused(1, 0);
    if (capture_len > VIN_CAPTURE_MAX || capture_len % p.group_bytes != 0)
        return refused(8, capture_len);
    groups = capture_len / p.group_bytes;
    if (crc)
        good = parity ? read_groups(&p, capture, groups, closed, &w, read_times, 1, 1)
                      : read_groups(&p, capture, groups, closed, &w, read_times, 1, 0);
    else
        good = parity ? read_groups(&p, capture, groups, closed, &w, read_times, 0, 1)
                      : read_groups(&p, capture, groups, closed, &w, read_times, 0, 0);
    if (UNLIKELY(!good))
        return refuse_capture(&p, capture, capture_len, closed);
    put(&w, 0, 4);
    bytes = (w.bits + 7) / 8;
    if (bytes > log_len)
        return refused(6, bytes);
    needed = frame_time ? groups : 0;
    if (times_len / 8 < needed)
        return refused(7, needed);
    memcpy(log, made, bytes);
    for (size_t n = 0; n < needed; n++)
        store64(times + 8 * n, read_times[n]);
    return (vin_answer){0, 0, 0, bytes, needed};
}

vin_answer fast_read_full(uint32_t words, uint32_t tracks, uint32_t frame_time, uint32_t crc, uint32_t parity, uint32_t crc_label,
                          uint32_t fill_bus, const uint8_t *kinds, size_t kinds_len, const uint8_t *capture, size_t capture_len,
                          uint8_t *log, size_t log_len, uint8_t *times, size_t times_len)
{
    return reading(0, words, tracks, frame_time, crc, parity, crc_label, fill_bus, kinds, kinds_len, capture, capture_len, log, log_len,
                   times, times_len);
}

vin_answer fast_read_closed_full(uint32_t words, uint32_t tracks, uint32_t frame_time, uint32_t crc, uint32_t parity, uint32_t crc_label,
                                 uint32_t fill_bus, const uint8_t *kinds, size_t kinds_len, const uint8_t *capture, size_t capture_len,
                                 uint8_t *log, size_t log_len, uint8_t *times, size_t times_len)
{
    return reading(1, words, tracks, frame_time, crc, parity, crc_label, fill_bus, kinds, kinds_len, capture, capture_len, log, log_len,
                   times, times_len);
}

vin_answer fast_read(uint32_t words, uint32_t tracks, uint32_t frame_time, uint32_t crc, uint32_t parity,
                     const uint8_t *kinds, size_t kinds_len, const uint8_t *capture, size_t capture_len,
                     uint8_t *log, size_t log_len, uint8_t *times, size_t times_len)
{
    return reading(0, words, tracks, frame_time, crc, parity, VIN_CRC_LABEL, VIN_FILL_BUS, kinds, kinds_len, capture, capture_len, log,
                   log_len, times, times_len);
}

vin_answer fast_read_closed(uint32_t words, uint32_t tracks, uint32_t frame_time, uint32_t crc, uint32_t parity,
                            const uint8_t *kinds, size_t kinds_len, const uint8_t *capture, size_t capture_len,
                            uint8_t *log, size_t log_len, uint8_t *times, size_t times_len)
{
    return reading(1, words, tracks, frame_time, crc, parity, VIN_CRC_LABEL, VIN_FILL_BUS, kinds, kinds_len, capture, capture_len, log,
                   log_len, times, times_len);
}
