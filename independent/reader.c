/* Document 01, "Items and their words", seen from a capture: what a data word starts or continues. */
#include <string.h>

#include "rules.h"

static void release(held *h, log_writer *log)
{
    log_put(log, &h->it);
    h->stage = NOTHING;
}

/* The word starts an item of one 1553 bus. */
static bool start_1553(held *h, word w, log_writer *log)
{
    static const uint32_t kinds[] = {[3] = COMMAND, [2] = STATUS, [1] = DATA, [0] = BUS_ERROR};
    if (w.label == LABEL_RESPONSE) {
        h->it.kind = STATUS;
        h->it.timed = true;
        h->it.response = w.information;
        h->stage = GOT_RESPONSE;
        return w.information < MICRO_LIMIT; /* "a micro or response of 10000 or more" starts nothing */
    }
    if (w.label < 8)
        return false;
    h->it.kind = kinds[w.label % 4];
    h->it.b = w.label < 12;
    h->it.word = w.information;
    if (h->it.kind == COMMAND)
        h->stage = MAY_BE_TAGGED;
    else
        release(h, log);
    return true;
}

/* The word starts an item of one ARINC group. */
static bool start_arinc(held *h, word w, log_writer *log)
{
    for (uint32_t channel = 0; channel < 4; channel++) {
        if (w.label == high_label(channel)) {
            h->it.kind = ARINC_WORD;
            h->it.channel = channel;
            h->it.word = w.information << 16;
            h->stage = GOT_HIGH_SYLLABLE;
            return true;
        }
        /* "a notice whose two labels are not one channel's pair" starts nothing */
        if (w.label == LABEL_NOTICE && w.information >> 8 == (high_label(channel) << 4 | low_label(channel))) {
            h->it.kind = NOTICE;
            h->it.channel = channel;
            h->it.word = w.information & 0xFF;
            release(h, log);
            return true;
        }
    }
    return false;
}

static bool start(held *h, const plan *p, word w, uint64_t place, log_writer *log)
{
    memset(h, 0, sizeof *h);
    h->first = place;
    h->it.bus = w.bus;
    if (p->kinds[w.bus] == UNUSED) /* "a non-fill word on an unused bus" starts nothing */
        return false;
    if (w.label == LABEL_USER || w.label == LABEL_USER + 1) {
        h->it.kind = USER;
        h->it.label3 = w.label == LABEL_USER + 1;
        h->it.word = w.information;
        release(h, log);
        return true;
    }
    if (w.label == LABEL_OVERFLOW) {
        h->it.kind = OVERFLOW_MARK;
        h->it.word = w.information;
        release(h, log);
        return true;
    }
    return p->kinds[w.bus] == BUS_1553 ? start_1553(h, w, log) : start_arinc(h, w, log);
}

/* "All words of an item carry the same bus code and stand next to each other". "A high time word on its bus that directly
 * follows a command or a low syllable belongs to it. Without one, a command or ARINC word is already finished; every other
 * item is unfinished until its last word, and so is one whose time words have begun. Until then no word starts another
 * item." */
bool reader_feed(held *h, const plan *p, word w, uint64_t place, log_writer *log)
{
    bool same_bus = w.bus == h->it.bus;
    switch (h->stage) {
    case NOTHING:
        return start(h, p, w, place, log);
    case MAY_BE_TAGGED:
        if (same_bus && w.label == LABEL_HIGH) {
            h->it.tagged = true;
            h->it.time.high = w.information;
            h->stage = GOT_HIGH_TIME;
            return true;
        }
        release(h, log);
        return start(h, p, w, place, log);
    case GOT_RESPONSE:
        if (!same_bus || (w.label != 14 && w.label != 10))
            return false;
        h->it.b = w.label == 10;
        h->it.word = w.information;
        release(h, log);
        return true;
    case GOT_HIGH_SYLLABLE:
        if (!same_bus || w.label != low_label(h->it.channel))
            return false;
        h->it.word |= w.information;
        h->stage = MAY_BE_TAGGED;
        return true;
    case GOT_HIGH_TIME:
        if (!same_bus || w.label != LABEL_LOW)
            return false;
        h->it.time.low = w.information;
        h->stage = GOT_LOW_TIME;
        return true;
    case GOT_LOW_TIME:
        if (!same_bus || w.label != LABEL_MICRO || w.information >= MICRO_LIMIT)
            return false;
        h->it.time.micro = w.information;
        release(h, log);
        return true;
    }
    return false;
}

/* "Without one, a command or ARINC word is already finished; every other item is unfinished until its last word, and so is one whose
 * time words have begun." */
bool reader_unfinished(const held *h)
{
    return h->stage != NOTHING && h->stage != MAY_BE_TAGGED;
}

bool reader_end(held *h, log_writer *log)
{
    if (h->stage == MAY_BE_TAGGED)
        release(h, log);
    return h->stage == NOTHING;
}
