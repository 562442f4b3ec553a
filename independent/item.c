/* Document 01, "Items and their words". */
#include "rules.h"

/* "15, 14, 13, 12: command, status, data, error A"; "11, 10, 9, 8: the same, B" */
static uint32_t label_1553(const item *i)
{
    static const uint32_t channel_a[] = {[COMMAND] = 15, [STATUS] = 14, [DATA] = 13, [BUS_ERROR] = 12};
    return channel_a[i->kind] - 4 * i->b;
}

/* Table 8-3 of Chapter 8, which decides (docs/DECISIONS.md, decision 1): the log's channel 0 is Table 8-3's channel 1, with
 * the labels 9 and 8; channel 3 is its channel 4, with 15 and 14. */
uint32_t high_label(uint32_t channel)
{
    return 9 + 2 * channel;
}

uint32_t low_label(uint32_t channel)
{
    return 8 + 2 * channel;
}

static uint32_t tag_words(uint32_t bus, time_words t, word *words)
{
    words[0] = (word){bus, LABEL_HIGH, t.high};
    words[1] = (word){bus, LABEL_LOW, t.low};
    words[2] = (word){bus, LABEL_MICRO, t.micro};
    return 3;
}

uint32_t item_words(const item *i, word words[ITEM_WORDS_MAX])
{
    uint32_t n = 0;
    switch (i->kind) {
    case COMMAND: /* "one word, or that word and its time words high, low, micro" */
        words[n++] = (word){i->bus, label_1553(i), i->word};
        if (i->tagged)
            n += tag_words(i->bus, i->time, words + n);
        break;
    case STATUS: /* "one word, or a response word and then the status word" */
        if (i->timed)
            words[n++] = (word){i->bus, LABEL_RESPONSE, i->response};
        words[n++] = (word){i->bus, label_1553(i), i->word};
        break;
    case DATA: /* "1553 data, bus error: one word each." */
    case BUS_ERROR:
        words[n++] = (word){i->bus, label_1553(i), i->word};
        break;
    case ARINC_WORD: /* "bits 32-17 as high syllable, then bits 16-1 as low syllable, then three time words if tagged" */
        words[n++] = (word){i->bus, high_label(i->channel), i->word >> 16};
        words[n++] = (word){i->bus, low_label(i->channel), i->word & 0xFFFF};
        if (i->tagged)
            n += tag_words(i->bus, i->time, words + n);
        break;
    case NOTICE: /* "label 4, bits 9-12 the channel's high label, 13-16 its low label, 17-24 diagnostics" */
        words[n++] = (word){i->bus, LABEL_NOTICE, high_label(i->channel) << 12 | low_label(i->channel) << 8 | i->word};
        break;
    case USER: /* "User word (label 3 or 2) and overflow mark (label 0) .., 16 bits of information." */
        words[n++] = (word){i->bus, LABEL_USER + i->label3, i->word};
        break;
    case OVERFLOW_MARK:
        words[n++] = (word){i->bus, LABEL_OVERFLOW, i->word};
        break;
    }
    return n;
}

/* "3: item's bus unused or of the wrong kind" */
bool item_on_right_bus(const item *i, const plan *p)
{
    uint32_t kind = p->kinds[i->bus];
    switch (i->kind) {
    case COMMAND: case STATUS: case DATA: case BUS_ERROR:
        return kind == BUS_1553;
    case ARINC_WORD: case NOTICE:
        return kind == BUS_ARINC;
    default: /* "User word .. and overflow mark .., on either kind of bus" */
        return kind != UNUSED;
    }
}

/* "4: micro or response 10000 or more" */
bool item_within_limits(const item *i)
{
    if (i->tagged && i->time.micro >= MICRO_LIMIT)
        return false;
    return !(i->timed && i->response >= MICRO_LIMIT);
}
