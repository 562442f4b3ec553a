/* Document 02, K13: the front-end buffer replayed. */
#include <string.h>

#include "rules.h"

/* The buffer as it stands: words, and what was lost since the last mark. */
typedef struct {
    uint32_t capacity, slots;
    uint64_t held, sent, lost;
    uint64_t unmarked;    /* items lost since the last mark */
    uint32_t first_lost;  /* the bus of the first of them */
    log_writer stored;
} buffer;

static ind_replayed refused_by(uint32_t number, uint64_t place)
{
    return (ind_replayed){.number = number, .place = place};
}

/* "first for a mark in the log (its first bit)" */
static bool find_mark(const uint8_t *log, size_t log_len, uint64_t *place, uint64_t *items)
{
    uint64_t bit = 0;
    item i;
    *items = 0;
    *place = 0;
    while (log_next(log, log_len, &bit, &i) == STANDS_ITEM) {
        if (i.kind == OVERFLOW_MARK)
            return true;
        *place = bit;
        ++*items;
    }
    return false;
}

/* "a row of at most 65,535 events, each "next item arrives" or "a group leaves"" : a byte each, 0 or 1 (docs/DECISIONS.md, K13) */
enum { ITEM_ARRIVES = 0, GROUP_LEAVES = 1, EVENTS_MAX = 65535 };

/* "a limit broken": "a capacity of 8 to 4,096 words, and the slots of a group, 1 to 2,048" */
static bool within_limits(size_t events_len, uint32_t capacity, uint32_t slots)
{
    return events_len <= EVENTS_MAX && capacity >= 8 && capacity <= 4096 && slots >= 1 && slots <= 2048;
}

/* "an event of neither kind or more arrivals than items" */
static bool events_good(const uint8_t *events, size_t events_len, uint64_t items)
{
    uint64_t arrivals = 0;
    for (size_t n = 0; n < events_len; n++) {
        if (events[n] != ITEM_ARRIVES && events[n] != GROUP_LEAVES)
            return false;
        if (events[n] == ITEM_ARRIVES)
            arrivals++;
    }
    return arrivals <= items;
}

/* "An arriving item needs its words, and one more for a mark if items were lost since the last mark. If they fit in the free room, the
 * mark (bus of the first lost item, word = number lost) and the item go in; otherwise the item is lost whole." */
static void arrives(buffer *b, const item *i)
{
    word words[ITEM_WORDS_MAX];
    uint64_t need = item_words(i, words);
    bool marks = b->unmarked > 0;
    if (marks)
        need++;
    if (need > b->capacity - b->held) {
        if (!marks)
            b->first_lost = i->bus;
        b->unmarked++;
        b->lost++;
        return;
    }
    if (marks) {
        item mark = {.kind = OVERFLOW_MARK, .bus = b->first_lost, .word = (uint32_t)b->unmarked};
        log_put(&b->stored, &mark);
        b->unmarked = 0;
    }
    log_put(&b->stored, i);
    b->held += need;
}

/* "A group takes the oldest words, as many as there are up to its slots, and that room is used again." */
static void leaves(buffer *b)
{
    uint64_t taken = b->held < b->slots ? b->held : b->slots;
    b->held -= taken;
    b->sent += taken;
}

static void replay(buffer *b, const uint8_t *log, size_t log_len, const uint8_t *events, size_t events_len)
{
    uint64_t bit = 0;
    for (size_t n = 0; n < events_len; n++) {
        item i;
        if (events[n] == GROUP_LEAVES)
            leaves(b);
        else if (log_next(log, log_len, &bit, &i) == STANDS_ITEM)
            arrives(b, &i);
    }
}

/* "Refusals: 2, 4 as in composing; then 19, first for a mark in the log (its first bit), then for a limit broken, an event of neither kind
 * or more arrivals than items (place 0); then 6." */
ind_replayed ind_replay(const uint8_t *log, size_t log_len, const uint8_t *events, size_t events_len, uint32_t capacity, uint32_t slots,
                        uint8_t *out, size_t out_len)
{
    buffer b;
    uint64_t place, items, bytes;
    ind_answer fault = log_fault(log, log_len);
    if (fault.number != 0)
        return refused_by(fault.number, fault.place);
    if (find_mark(log, log_len, &place, &items))
        return refused_by(19, place);
    if (!within_limits(events_len, capacity, slots) || !events_good(events, events_len, items))
        return refused_by(19, 0);
    b.capacity = capacity;
    b.slots = slots;
    b.held = b.sent = b.lost = b.unmarked = 0;
    b.first_lost = 0;
    log_begin(&b.stored);
    replay(&b, log, log_len, events, events_len);
    bytes = log_end(&b.stored);
    if (bytes > LOG_MAX || out_len < bytes)
        return refused_by(6, bytes);
    memcpy(out, b.stored.bytes, bytes);
    return (ind_replayed){.bytes = bytes, .sent = b.sent, .lost = b.lost, .held = b.held};
}
