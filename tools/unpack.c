#include "unpack.h"

#include <inttypes.h>
#include <string.h>

#include "listing.h"

static uint32_t bits_at(const unpacking *u, size_t bit, unsigned width)
{
    uint32_t value = 0;
    for (; width > 0; width--, bit++)
        value = value << 1 | (u->bytes[bit / 8] >> (7 - bit % 8) & 1u);
    return value;
}

/* What a kind has between bus and word: of channel, side or label the bits, and whether a time may follow;
 * and the word's bits. */
static const struct {
    unsigned part, time, word;
} fields[KINDS] = {
    [COMMAND] = {1, 1, 16},    [STATUS] = {1, 1, 16}, [DATA] = {1, 0, 16},      [BUS_ERROR] = {1, 0, 16},
    [ARINC_WORD] = {2, 1, 32}, [NOTICE] = {2, 0, 8},  [USER_WORD] = {1, 0, 16}, [OVERFLOW_MARK] = {0, 0, 16}};

enum { KIND_BITS = 4, BUS_BITS = 4, FLAG_BITS = 3 };

/* The item at the bit, if all its bits are there; the end mark is none. */
static bool item_at(const unpacking *u, item *i)
{
    size_t bits = 8 * u->length + u->bits, at = u->bit + KIND_BITS + BUS_BITS;
    *i = (item){END_MARK, 0, 0, 0, false, 0};
    if (bits < at + FLAG_BITS)
        return false;
    i->kind = bits_at(u, u->bit, KIND_BITS);
    if (i->kind == END_MARK || i->kind >= KINDS)
        return false;
    i->bus = bits_at(u, u->bit + KIND_BITS, BUS_BITS);
    i->part = bits_at(u, at, fields[i->kind].part);
    at += fields[i->kind].part;
    i->timed = bits_at(u, at, fields[i->kind].time);
    at += fields[i->kind].time;
    if (bits < u->bit + item_bits(i))
        return false;
    i->word = bits_at(u, at, fields[i->kind].word);
    at += fields[i->kind].word;
    if (i->timed && i->kind == STATUS)
        i->time = bits_at(u, at, 14);
    else if (i->timed)
        i->time = UINT64_C(10000) * bits_at(u, at, 32) + bits_at(u, at + 32, 14);
    return true;
}

void unpack(unpacking *u, const uint8_t *bytes, size_t length, unsigned bits, unsigned last, FILE *to)
{
    item i;
    memcpy(u->bytes + u->length, bytes, length);
    u->length += length;
    u->bits = bits;
    u->bytes[u->length] = (uint8_t)(last << (8 - bits));
    while (item_at(u, &i)) {
        fprintf(to, "%s\n", line_of_item(&i).text);
        u->bit += item_bits(&i);
        u->items++;
    }
    size_t used = u->bit / 8;
    u->length -= used;
    u->bit -= 8 * used;
    memmove(u->bytes, u->bytes + used, u->length);
}

void end_unpacking(const unpacking *u, FILE *to)
{
    fprintf(to, "end %" PRIu64 "\n", u->items);
}
