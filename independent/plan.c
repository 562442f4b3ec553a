/* Document 01, "The plan" and the dealing of "Groups"; document 02, K5: the CRC word's label and the fill bus code. */
#include "rules.h"

static bool choice(bool *to, uint32_t number)
{
    *to = number == 1;
    return number <= 1;
}

/* "A plan number that names no choice or kind is 1." Kinds are sixteen bytes. */
static bool named(plan *p, uint32_t frame_time, uint32_t crc, uint32_t parity, const uint8_t *kinds, size_t kinds_len)
{
    if (!choice(&p->frame_time, frame_time) || !choice(&p->crc, crc) || !choice(&p->parity, parity))
        return false;
    if (kinds_len != 16)
        return false;
    for (int bus = 0; bus < 16; bus++) {
        if (kinds[bus] > BUS_ARINC)
            return false;
        p->kinds[bus] = kinds[bus];
    }
    return true;
}

/* "Illegal: L or T outside; T above 1 with other than exactly one used bus; parity with a used bus above 7." */
static bool legal(const plan *p)
{
    int used = 0, used_above_7 = 0;
    for (int bus = 0; bus < 16; bus++)
        if (p->kinds[bus] != UNUSED) {
            used++;
            if (bus > 7)
                used_above_7++;
        }
    /* "at least 128 and at most 512" (K1) */
    if (p->length < 128 || p->length > 512)
        return false;
    /* "Tracks T, 1 to 4." */
    if (p->tracks < 1 || p->tracks > 4)
        return false;
    if (p->tracks > 1 && used != 1)
        return false;
    if (p->parity && used_above_7 > 0)
        return false;
    /* "1 also for a label above 7, a code above 15, or above 7 with parity" (K5), whether or not a CRC word or fill is written */
    if (p->crc_label > 7 || p->fill_bus > 15)
        return false;
    return !(p->parity && p->fill_bus > 7);
}

bool plan_of(plan *p, uint32_t words, uint32_t tracks, uint32_t frame_time, uint32_t crc, uint32_t parity, uint32_t crc_label,
             uint32_t fill_bus, const uint8_t *kinds, size_t kinds_len)
{
    p->length = words;
    p->tracks = tracks;
    p->crc_label = crc_label;
    p->fill_bus = fill_bus;
    return named(p, frame_time, crc, parity, kinds, kinds_len) && legal(p);
}

/* "A group is T frames of L words." */
uint64_t group_words(const plan *p)
{
    return (uint64_t)p->tracks * p->length;
}

/* "First come the frame's three time words on bus 0 if frame time is chosen, then data." */
uint64_t furniture(const plan *p)
{
    return p->frame_time ? 3 : 0;
}

/* "Data slots in a group: T x (L - 1), less T with CRC, less 3 with frame time." */
uint64_t group_slots(const plan *p)
{
    return (uint64_t)p->tracks * (p->length - 1) - (p->crc ? p->tracks : 0) - furniture(p);
}

/* "The rest is dealt row by row: word 2 of track 1, of track 2, and so on, then word 3."
 * "A word's place counts stored words from 0"; a group is stored "tracks in order". */
uint64_t dealt_place(const plan *p, uint64_t group, uint64_t dealt)
{
    uint64_t track = dealt % p->tracks;
    uint64_t position = 1 + dealt / p->tracks;
    return group * group_words(p) + track * p->length + position;
}
