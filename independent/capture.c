/* Document 01, "Groups" and "Answers by number": a capture's groups, their faults 9 to 12, their frame times and data slots. */
#include "rules.h"

/* "8: capture above 1,048,576 bytes or not whole groups" */
bool capture_of(tape *c, const plan *p, const uint8_t *bytes, size_t bytes_len)
{
    uint64_t group_bytes = 3 * group_words(p);
    *c = (tape){p, bytes, bytes_len / group_bytes};
    return bytes_len <= CAPTURE_MAX && bytes_len % group_bytes == 0;
}

word word_at(const tape *c, uint64_t place)
{
    return received(c->p, stored(c->bytes, place));
}

/* "each word as stored (9 for a frame's first word, 10 for any other, 11 after 10 for a CRC word)" */
static ind_answer check_stored(const tape *c, uint64_t group)
{
    const plan *p = c->p;
    for (uint32_t track = 0; track < p->tracks; track++) {
        uint64_t first = group * group_words(p) + (uint64_t)track * p->length;
        for (uint32_t position = 0; position < p->length; position++) {
            uint32_t bits = stored(c->bytes, first + position);
            if (position == 0) {
                if (bits != SYNC)
                    return refused(9, first);
                continue;
            }
            if (p->parity && !odd(bits))
                return refused(10, first + position);
            if (p->crc && position == p->length - 1 && bits != crc_word(p, c->bytes + 3 * first))
                return refused(11, first + position);
        }
    }
    return passed();
}

/* "12: frame time word: bus, label or micro wrong" */
static ind_answer check_frame_time(const tape *c, uint64_t group)
{
    static const uint32_t labels[3] = {LABEL_HIGH, LABEL_LOW, LABEL_MICRO};
    for (uint64_t dealt = 0; dealt < furniture(c->p); dealt++) {
        uint64_t place = dealt_place(c->p, group, dealt);
        word w = word_at(c, place);
        if (w.bus != 0 || w.label != labels[dealt] || (w.label == LABEL_MICRO && w.information >= MICRO_LIMIT))
            return refused(12, place);
    }
    return passed();
}

/* The first fault of a group: "each word as stored .., then 12" */
ind_answer group_fault(const tape *c, uint64_t group)
{
    ind_answer fault = check_stored(c, group);
    return fault.number != 0 ? fault : check_frame_time(c, group);
}

uint64_t frame_time_of(const tape *c, uint64_t group)
{
    time_words t = {word_at(c, dealt_place(c->p, group, 0)).information, word_at(c, dealt_place(c->p, group, 1)).information,
                    word_at(c, dealt_place(c->p, group, 2)).information};
    return time_join(t);
}

uint64_t slot_place(const tape *c, uint64_t group, uint64_t slot)
{
    return dealt_place(c->p, group, furniture(c->p) + slot);
}

/* "7: time table too short"; "in a reading's room the spare bytes count for nothing and stay" */
uint64_t times_of(const tape *c)
{
    return c->p->frame_time ? c->groups : 0;
}

void put_times(const tape *c, uint8_t *times)
{
    for (uint64_t group = 0; group < times_of(c); group++)
        time_to_bytes(times + 8 * group, frame_time_of(c, group));
}
