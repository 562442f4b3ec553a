/* Document 01: composing; document 02, K2: open notices, K5: the whole plan. */
#include "rules.h"

/* The words of a log's items, in order. */
typedef struct {
    word words[WORDS_MAX];
    uint64_t count;
} word_list;

/* "Composing checks 1; the log's length; the items in order, each for 2, 3, 4" */
static ind_answer gather(const plan *p, const uint8_t *log, size_t log_len, word_list *list)
{
    uint64_t bit = 0;
    list->count = 0;
    if (log_len > LOG_MAX)
        return refused(2, 0);
    for (;;) {
        item i;
        uint64_t first_bit = bit;
        switch (log_next(log, log_len, &bit, &i)) {
        case STANDS_FAULT:
            return refused(2, first_bit);
        case STANDS_END:
            return passed();
        case STANDS_ITEM:
            break;
        }
        if (!item_on_right_bus(&i, p))
            return refused(3, first_bit);
        if (!item_within_limits(&i))
            return refused(4, first_bit);
        list->count += item_words(&i, list->words + list->count);
    }
}

/* K2: "Call a notice open if no ARINC word of its bus and channel stands between it and their next notice, or the end." Of the
 * items behind a notice, from a bit on, in a log that has no fault. */
static bool notice_open(const uint8_t *log, size_t log_len, uint64_t bit, const item *notice)
{
    item i;
    while (log_next(log, log_len, &bit, &i) == STANDS_ITEM)
        if ((i.kind == ARINC_WORD || i.kind == NOTICE) && i.bus == notice->bus && i.channel == notice->channel)
            return i.kind == NOTICE;
    return true;
}

/* "15, at the earliest open notice (its first bit ..); composing tests it after 2 to 4 over the whole log and before 5" */
static ind_answer check_notices(const uint8_t *log, size_t log_len)
{
    uint64_t bit = 0, first_bit = 0;
    item i;
    while (log_next(log, log_len, &bit, &i) == STANDS_ITEM) {
        if (i.kind == NOTICE && notice_open(log, log_len, bit, &i))
            return refused(15, first_bit);
        first_bit = bit;
    }
    return passed();
}

/* The group's dealt word: its time words, then data, "and fill after the last". */
static word dealt_word(const plan *p, const word_list *list, uint64_t group, uint64_t dealt, time_words t)
{
    uint64_t index;
    if (dealt < furniture(p)) {
        word time_word[3] = {{0, LABEL_HIGH, t.high}, {0, LABEL_LOW, t.low}, {0, LABEL_MICRO, t.micro}};
        return time_word[dealt];
    }
    index = group * group_slots(p) + dealt - furniture(p);
    return index < list->count ? list->words[index] : fill(p);
}

/* "Each group is written to its own part of the lent output, tracks in order." */
static void write_group(const plan *p, const word_list *list, uint64_t group, time_words t, uint8_t *part)
{
    for (uint32_t track = 0; track < p->tracks; track++) {
        uint8_t *frame = part + 3 * (uint64_t)track * p->length;
        store(frame, 0, SYNC); /* "Word 1 of each frame is FAF320, never altered." */
        for (uint32_t position = 1; position < p->length; position++) {
            uint64_t dealt = (uint64_t)(position - 1) * p->tracks + track;
            if (p->crc && position == p->length - 1)
                store(frame, position, crc_word(p, frame));
            else
                store(frame, position, sent(p, dealt_word(p, list, group, dealt, t)));
        }
    }
}

/* "5: number of frame times wrong; or one is 42,949,672,960,000 or more"; "number before size". "Composing refuses a run of
 * times that is not whole eights by 5, its place the number needed". */
static ind_answer check_times(uint64_t needed, const uint8_t *times, size_t times_len)
{
    if (times_len % 8 != 0 || times_len / 8 != needed)
        return refused(5, needed);
    for (uint64_t index = 0; index < needed; index++)
        if (time_from_bytes(times + 8 * index) >= TIME_LIMIT)
            return refused(5, index);
    return passed();
}

ind_answer ind_compose_full(uint32_t words, uint32_t tracks, uint32_t frame_time, uint32_t crc, uint32_t parity, uint32_t crc_label,
                            uint32_t fill_bus, const uint8_t *kinds, size_t kinds_len,
                            const uint8_t *log, size_t log_len,
                            const uint8_t *times, size_t times_len,
                            uint8_t *out, size_t out_len)
{
    plan p;
    word_list list;
    ind_answer answer;
    uint64_t groups, bytes;

    if (!plan_of(&p, words, tracks, frame_time, crc, parity, crc_label, fill_bus, kinds, kinds_len))
        return refused(1, 0);
    answer = gather(&p, log, log_len, &list);
    if (answer.number == 0)
        answer = check_notices(log, log_len);
    if (answer.number != 0)
        return answer;

    /* "It uses the fewest groups that hold the words" */
    groups = (list.count + group_slots(&p) - 1) / group_slots(&p);
    bytes = 3 * groups * group_words(&p);

    /* "frame times, one 64-bit number a group, none if frame time is off" */
    answer = check_times(p.frame_time ? groups : 0, times, times_len);
    if (answer.number != 0)
        return answer;
    if (out_len < bytes)
        return refused(6, bytes);

    for (uint64_t group = 0; group < groups; group++) {
        time_words t = {0, 0, 0};
        if (p.frame_time)
            t = time_split(time_from_bytes(times + 8 * group));
        write_group(&p, &list, group, t, out + 3 * group * group_words(&p));
    }
    return (ind_answer){.bytes = bytes};
}

ind_answer ind_compose(uint32_t words, uint32_t tracks, uint32_t frame_time, uint32_t crc, uint32_t parity,
                       const uint8_t *kinds, size_t kinds_len,
                       const uint8_t *log, size_t log_len,
                       const uint8_t *times, size_t times_len,
                       uint8_t *out, size_t out_len)
{
    return ind_compose_full(words, tracks, frame_time, crc, parity, CRC_LABEL_BEFORE, FILL_BUS_BEFORE, kinds, kinds_len, log, log_len,
                            times, times_len, out, out_len);
}
