#include "deal.h"

#include "../../independent/rules.h"

size_t deal(uint32_t words, uint32_t tracks, uint32_t frame_time, uint32_t crc, uint32_t parity, uint32_t crc_label, uint32_t fill_bus,
            const uint8_t kinds[16], const uint8_t *rest, size_t size, uint64_t more, uint8_t *to, size_t room)
{
    plan given, *p = &given;
    if (!plan_of(p, words, tracks, frame_time, crc, parity, crc_label, fill_bus, kinds, 16))
        return 0;
    uint64_t slots = group_slots(p), groups = (size / 3 + slots - 1) / slots + more;
    if (3 * groups * group_words(p) > room)
        groups = room / (3 * group_words(p));
    for (uint64_t k = 0; k < groups * group_words(p); k++)
        store(to, k, k % p->length == 0 ? SYNC : sent(p, fill(p)));
    for (uint64_t g = 0; g < groups; g++) {
        for (uint64_t k = 0; k < furniture(p); k++)
            store(to, dealt_place(p, g, k), sent(p, (word){0, LABEL_HIGH - (uint32_t)k, (uint32_t)(g * 777 % 10000)}));
        for (uint64_t k = 0; k < slots && 3 * (g * slots + k) + 2 < size; k++)
            store(to, dealt_place(p, g, furniture(p) + k), sent(p, received(p, stored(rest, g * slots + k))));
        for (uint32_t t = 0; t < p->tracks && p->crc; t++) {
            uint8_t *frame = to + 3 * (g * group_words(p) + (uint64_t)t * p->length);
            store(frame, p->length - 1, crc_word(p, frame));
        }
    }
    return 3 * groups * group_words(p);
}
