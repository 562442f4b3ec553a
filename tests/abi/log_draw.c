/* Drawn logs for the functions that take no plan: items of every kind on any bus. */
#include <string.h>

#include "../../include/vinculampe.h"
#include "log_calls.h"

/* Up to 32 bits, edges among them. */
static uint64_t draw_bits(uint32_t width)
{
    uint64_t all = (UINT64_C(1) << width) - 1, high = draw(65536);
    switch (draw(12)) {
    case 0: return 0;
    case 1: return all;
    case 2: return 1;
    default: return (high << 16 | draw(65536)) & all;
    }
}

/* A micro or response: below 10000, or with faults now and then not. */
static uint64_t draw_fine(bool faults)
{
    static const uint32_t edges[] = {0, 1, 9998, 9999};
    if (faults && one_in(60))
        return one_in(2) ? 10000 : 10000 + draw(6384);
    return one_in(6) ? edges[draw(4)] : draw(10000);
}

static void put(drawn_log *l, size_t *bit, uint32_t width, uint64_t value)
{
    for (; width > 0; width--, ++*bit)
        if (*bit / 8 < sizeof l->bytes && (value >> (width - 1) & 1))
            l->bytes[*bit / 8] |= (uint8_t)(0x80 >> *bit % 8);
}

/* The fields of each kind, as document 01 has them: those before the flag, whether there is one, those of the word, and those that the
 * flag adds before the 14 bits of a micro or response. */
static const struct {
    uint8_t part, flag, word, more;
} kinds[9] = {{0, 0, 0, 0},  {1, 1, 16, 32}, {1, 1, 16, 0}, {1, 0, 16, 0}, {1, 0, 16, 0},
              {2, 1, 32, 32}, {2, 0, 8, 0},   {1, 0, 16, 0}, {0, 0, 16, 0}};

static void put_item(drawn_log *l, size_t *bit, uint32_t bus, bool faults)
{
    uint32_t kind = 1 + draw(8), flag = draw(2);
    if (faults && one_in(80))
        kind = draw(16);
    put(l, bit, 4, kind);
    if (kind == 0 || kind > 8) {
        put(l, bit, 20, draw_bits(20));
        return;
    }
    put(l, bit, 4, bus);
    put(l, bit, kinds[kind].part, draw_bits(kinds[kind].part));
    put(l, bit, kinds[kind].flag, flag);
    put(l, bit, kinds[kind].word, draw_bits(kinds[kind].word));
    if (kinds[kind].flag && flag) {
        put(l, bit, kinds[kind].more, draw_bits(kinds[kind].more));
        put(l, bit, 14, draw_fine(faults));
    }
}

static void spoil(drawn_log *l)
{
    size_t length = l->length;
    switch (draw(6)) {
    case 0: l->length = draw((uint32_t)length + 1); break;
    case 1: l->length = length - 1; break;
    case 2: l->bytes[length] = (uint8_t)(one_in(2) ? 0 : draw(256)); l->length = length + 1; break;
    case 3: l->bytes[length - 1] ^= (uint8_t)(1u << draw(4)); break;
    case 4: l->length = one_in(3) ? VIN_LOG_MAX + draw(3) : length; break; /* zeros behind it */
    default: l->bytes[draw((uint32_t)length)] = (uint8_t)draw(256); break;
    }
}

/* Bits that the items are to have. A full log costs as much as five hundred others. */
static size_t draw_size(void)
{
    uint32_t how = draw(1000);
    if (how < 1)
        return 8 * VIN_LOG_MAX - 4 - (one_in(2) ? draw(200) : 0);
    if (how < 4)
        return draw(8 * 16384 + 100);
    return how < 500 ? draw(200) : draw(2000);
}

void draw_any_log(drawn_log *l)
{
    bool faults = one_in(3), full;
    size_t bit = 0, wanted = draw_size();
    uint32_t buses = one_in(2) ? 16 : 1 + draw(4), first = draw(16);
    full = wanted > 8 * VIN_LOG_MAX - 300;
    memset(l->bytes, 0, l->used);
    while (bit + (full ? 89 : 0) < wanted)
        put_item(l, &bit, (first + draw(buses)) % 16, faults && !full);
    while (full && bit + 18 <= wanted) { /* notices up to the last bits */
        put(l, &bit, 8, 0x60 | first);
        put(l, &bit, 10, draw(1024));
    }
    put(l, &bit, 4, 0);
    l->length = (bit + 7) / 8;
    l->used = l->length + 1; /* spoil may write one more */
    if (faults && one_in(3))
        spoil(l);
}

size_t draw_room(uint64_t needed)
{
    return draw_near(needed, VIN_LOG_MAX + 100);
}
