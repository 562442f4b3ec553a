/* Document 01, "The house log". */
#include <string.h>

#include "rules.h"

/* ---- Reading ---- */

/* The cursor of one item: bits left, and whether more were asked for than there are. */
typedef struct {
    const uint8_t *log;
    uint64_t bit, bits;
    bool cut;
} cursor;

/* "The house log is bit-packed, most significant bit first." */
static uint32_t take(cursor *c, uint32_t width)
{
    uint32_t value = 0;
    if (c->bits - c->bit < width) {
        c->cut = true;
        c->bit = c->bits;
        return 0;
    }
    for (; width > 0; width--, c->bit++)
        value = value << 1 | (c->log[c->bit / 8] >> (7 - c->bit % 8) & 1u);
    return value;
}

static time_words take_time(cursor *c)
{
    time_words t;
    t.high = take(c, 16);
    t.low = take(c, 16);
    t.micro = take(c, 14);
    return t;
}

/* The fields behind kind and bus; false for an unknown kind. */
static bool take_fields(cursor *c, item *i)
{
    switch (i->kind) {
    case COMMAND: /* B 1, tagged 1, word 16, [high 16, low 16, micro 14] */
        i->b = take(c, 1);
        i->tagged = take(c, 1);
        i->word = take(c, 16);
        if (i->tagged)
            i->time = take_time(c);
        return true;
    case STATUS: /* B 1, timed 1, word 16, [response 14] */
        i->b = take(c, 1);
        i->timed = take(c, 1);
        i->word = take(c, 16);
        if (i->timed)
            i->response = take(c, 14);
        return true;
    case DATA: /* B 1, word 16 */
    case BUS_ERROR:
        i->b = take(c, 1);
        i->word = take(c, 16);
        return true;
    case ARINC_WORD: /* channel 2, tagged 1, word 32, [high 16, low 16, micro 14] */
        i->channel = take(c, 2);
        i->tagged = take(c, 1);
        i->word = take(c, 32);
        if (i->tagged)
            i->time = take_time(c);
        return true;
    case NOTICE: /* channel 2, diagnostics 8 */
        i->channel = take(c, 2);
        i->word = take(c, 8);
        return true;
    case USER: /* label 3 rather than 2: 1, word 16 */
        i->label3 = take(c, 1);
        i->word = take(c, 16);
        return true;
    case OVERFLOW_MARK: /* word 16 */
        i->word = take(c, 16);
        return true;
    default:
        return false;
    }
}

/* "Kind 0 alone (no bus) ends the log; zero bits fill its last byte and nothing follows." */
static bool good_ending(cursor *c)
{
    uint64_t left = c->bits - c->bit;
    return left < 8 && take(c, (uint32_t)left) == 0;
}

enum stands log_next(const uint8_t *log, size_t log_len, uint64_t *bit, item *i)
{
    cursor c = {log, *bit, 8 * (uint64_t)log_len, false};
    memset(i, 0, sizeof *i);
    i->kind = take(&c, 4);
    if (c.cut)
        return STANDS_FAULT;
    if (i->kind == END)
        return good_ending(&c) ? STANDS_END : STANDS_FAULT;
    i->bus = take(&c, 4);
    if (!take_fields(&c, i) || c.cut)
        return STANDS_FAULT;
    *bit = c.bit;
    return STANDS_ITEM;
}

/* "2, 4 as in composing" (document 02): the length, then the items in order, each for 2, 4. Without a plan there is no 3. */
ind_answer log_fault(const uint8_t *log, size_t log_len)
{
    uint64_t bit = 0;
    if (log_len > LOG_MAX)
        return refused(2, 0);
    for (;;) {
        item i;
        uint64_t first_bit = bit;
        enum stands stands = log_next(log, log_len, &bit, &i);
        if (stands == STANDS_END)
            return passed();
        if (stands == STANDS_FAULT)
            return refused(2, first_bit);
        if (!item_within_limits(&i))
            return refused(4, first_bit);
    }
}

/* ---- Writing ---- */

static void put(log_writer *w, uint32_t value, uint32_t width)
{
    for (; width > 0; width--, w->bits++) {
        if (w->bits / 8 >= LOG_MAX)
            continue;
        if (w->bits % 8 == 0)
            w->bytes[w->bits / 8] = 0;
        if (value >> (width - 1) & 1)
            w->bytes[w->bits / 8] |= (uint8_t)(0x80 >> w->bits % 8);
    }
}

static void put_time(log_writer *w, time_words t)
{
    put(w, t.high, 16);
    put(w, t.low, 16);
    put(w, t.micro, 14);
}

void log_begin(log_writer *w)
{
    w->bits = 0;
}

void log_put(log_writer *w, const item *i)
{
    put(w, i->kind, 4);
    put(w, i->bus, 4);
    switch (i->kind) {
    case COMMAND:
        put(w, i->b, 1);
        put(w, i->tagged, 1);
        put(w, i->word, 16);
        if (i->tagged)
            put_time(w, i->time);
        break;
    case STATUS:
        put(w, i->b, 1);
        put(w, i->timed, 1);
        put(w, i->word, 16);
        if (i->timed)
            put(w, i->response, 14);
        break;
    case DATA:
    case BUS_ERROR:
        put(w, i->b, 1);
        put(w, i->word, 16);
        break;
    case ARINC_WORD:
        put(w, i->channel, 2);
        put(w, i->tagged, 1);
        put(w, i->word, 32);
        if (i->tagged)
            put_time(w, i->time);
        break;
    case NOTICE:
        put(w, i->channel, 2);
        put(w, i->word, 8);
        break;
    case USER:
        put(w, i->label3, 1);
        put(w, i->word, 16);
        break;
    case OVERFLOW_MARK:
        put(w, i->word, 16);
        break;
    }
}

uint64_t log_end(log_writer *w)
{
    put(w, END, 4);
    return (w->bits + 7) / 8;
}
