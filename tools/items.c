#include "items.h"

/* The bits of an item: those before its word, the word's, and those that a time or response adds, whose last
 * 14 are a micro or a response; where the flag for them stands. Its words in a capture, and those that a time
 * or response adds. */
static const struct {
    const char *text, *code;
    unsigned part, flag, word, more, words, more_words;
} kinds[KINDS] = {
    [END_MARK] = {"the end mark", "end", 0, 0, 0, 0, 0, 0},
    [COMMAND] = {"a command", "cmd", 1, 9, 16, 46, 1, 3},
    [STATUS] = {"a status", "sta", 1, 9, 16, 14, 1, 1},
    [DATA] = {"a data word", "dat", 1, 0, 16, 0, 1, 0},
    [BUS_ERROR] = {"a bus error", "err", 1, 0, 16, 0, 1, 0},
    [ARINC_WORD] = {"an ARINC word", "arn", 2, 10, 32, 46, 2, 3},
    [NOTICE] = {"an ARINC notice", "are", 2, 0, 8, 0, 1, 0},
    [USER_WORD] = {"a user word", "usr", 1, 0, 16, 0, 1, 0},
    [OVERFLOW_MARK] = {"an overflow mark", "ovf", 0, 0, 16, 0, 1, 0},
};
enum { FINE = 14, HEAD = 8 };

const char *kind_text(unsigned kind)
{
    return kind < KINDS ? kinds[kind].text : "an unknown kind";
}

const char *kind_code(unsigned kind)
{
    return kinds[kind].code;
}

/* Without what a time or response adds. */
static size_t least_bits(unsigned kind)
{
    return HEAD + kinds[kind].part + (kinds[kind].flag ? 1 : 0) + kinds[kind].word;
}

size_t item_bits(const item *i)
{
    return least_bits(i->kind) + (i->timed ? kinds[i->kind].more : 0);
}

size_t item_words(const item *i)
{
    return kinds[i->kind].words + (i->timed ? kinds[i->kind].more_words : 0);
}

/* ==== Written ==== */

static void put(log_pen *pen, unsigned width, uint64_t value)
{
    for (; width > 0; width--, pen->bits++)
        if (value >> (width - 1) & 1)
            pen->bytes[pen->bits / 8] |= (uint8_t)(0x80 >> pen->bits % 8);
}

void put_item(log_pen *pen, const item *i)
{
    put(pen, 4, i->kind);
    if (i->kind == END_MARK)
        return;
    put(pen, 4, i->bus);
    put(pen, kinds[i->kind].part, i->part);
    if (kinds[i->kind].flag)
        put(pen, 1, i->timed);
    put(pen, kinds[i->kind].word, i->word);
    if (i->timed && i->kind == STATUS)
        put(pen, FINE, i->time);
    else if (i->timed) {
        put(pen, 32, i->time / 10000);
        put(pen, FINE, i->time % 10000);
    }
}

/* ==== Looked at ==== */

static unsigned field(const uint8_t *log, size_t bit, unsigned width)
{
    unsigned value = 0;
    for (; width > 0; width--, bit++)
        value = value << 1 | (log[bit / 8] >> (7 - bit % 8) & 1u);
    return value;
}

/* What begins at this bit, and its bits. */
static spot look(const uint8_t *log, size_t length, size_t bit, size_t *bits)
{
    spot s = {0, 8 * length - bit, 0, 0, false, false, 0, 0};
    *bits = 0;
    if (s.left >= 4)
        s.kind = field(log, bit, 4);
    if (s.left >= HEAD)
        s.bus = field(log, bit + 4, 4);
    if (s.left < HEAD || s.kind == END_MARK || s.kind >= KINDS || s.left < least_bits(s.kind))
        return s;
    *bits = least_bits(s.kind);
    s.timed = kinds[s.kind].flag && field(log, bit + kinds[s.kind].flag, 1);
    if (s.timed)
        *bits += kinds[s.kind].more;
    s.whole = *bits <= s.left;
    if (s.whole && s.timed)
        s.fine = field(log, bit + *bits - FINE, FINE);
    if (s.whole && s.timed && s.kind != STATUS)
        s.time = UINT64_C(10000) * field(log, bit + *bits - FINE - 32, 32) + s.fine;
    return s;
}

spot spot_at(const uint8_t *log, size_t length, uint64_t bit)
{
    size_t bits, number = 1, here = 0;
    spot s = look(log, length, 0, &bits);
    while (here < bit && s.whole) {
        here += bits;
        number++;
        s = look(log, length, here, &bits);
    }
    s.number = number;
    return s;
}
