/* The plan. */
#include "fast_inside.h"

int fast_plan_of(fast_plan *p, uint32_t words, uint32_t tracks, uint32_t frame_time, uint32_t crc, uint32_t parity, uint32_t crc_label,
                 uint32_t fill_bus, const uint8_t *kinds, size_t kinds_len)
{
    uint32_t used_1553 = 0, used_arinc = 0, wrong = 0, used;
    if (kinds_len != 16 || words - 128 > 512 - 128 || tracks - 1 > 3 || (frame_time | crc | parity) > 1)
        return 0;
    if (crc_label > 7 || fill_bus > (parity ? 7 : 15))
        return 0;
    for (uint32_t bus = 0; bus < 16; bus++) {
        wrong |= kinds[bus] > 2;
        used_1553 |= (uint32_t)(kinds[bus] == 1) << bus;
        used_arinc |= (uint32_t)(kinds[bus] == 2) << bus;
    }
    used = used_1553 | used_arinc;
    if (wrong || (tracks > 1 && (used == 0 || (used & (used - 1)) != 0)) || (parity && used > 255))
        return 0;
    p->length = words;
    p->tracks = tracks;
    p->frame_time = frame_time;
    p->crc = crc;
    p->parity = parity;
    p->label = crc_label << 16;
    p->fill = fill_bus << 20 | FILL;
    p->kinds = kinds;
    p->used_1553 = used_1553;
    p->used_arinc = used_arinc;
    p->rows = words - 1 - crc;
    p->furniture = frame_time ? 3 : 0;
    p->slots = tracks * p->rows - p->furniture;
    p->group_bytes = (size_t)3 * words * tracks;
    return 1;
}
