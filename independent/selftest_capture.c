#include "selftest_capture.h"

#include <string.h>

uint32_t tracks, frame_time, crc, parity;
uint8_t kinds[16], capture_bytes[8 * GROUP];

void plan_is(uint32_t t, uint32_t f, uint32_t c, uint32_t o)
{
    tracks = t, frame_time = f, crc = c, parity = o;
    memset(kinds, 0, sizeof kinds);
    kinds[2] = BUS_1553;
    if (t == 1)
        kinds[5] = BUS_ARINC;
}

plan the_plan(void)
{
    plan p;
    CHECK(plan_of(&p, L, tracks, frame_time, crc, parity, 3, 0, kinds, 16));
    return p;
}

size_t capture_words(const uint32_t *words, size_t count)
{
    plan p = the_plan();
    size_t groups = (count + group_slots(&p) - 1) / group_slots(&p);
    for (size_t group = 0; group < groups; group++) {
        uint8_t *at = capture_bytes + group * 3 * group_words(&p);
        for (uint64_t n = 0; n < group_words(&p); n++)
            store(at, n, n % L == 0 ? SYNC : FILL_ON_0);
        for (uint64_t n = 0; n < furniture(&p); n++)
            store(at, dealt_place(&p, 0, n), sent(&p, (word){0, LABEL_HIGH - (uint32_t)n, (uint32_t)group}));
        for (uint64_t slot = 0; slot < group_slots(&p) && group * group_slots(&p) + slot < count; slot++)
            store(at, dealt_place(&p, 0, furniture(&p) + slot), words[group * group_slots(&p) + slot]);
        for (uint32_t track = 0; p.crc && track < p.tracks; track++)
            store(at + (size_t)track * GROUP, L - 1, crc_word(&p, at + (size_t)track * GROUP));
    }
    return groups * 3 * group_words(&p);
}
