/* One contractor's bus tells nothing of another's (document 02, K14): two captures whose data words on a set of buses are the same, and
 * that differ in all else (the other buses' items, the plan but for its kinds, the frame times), are read, and the set is picked from both
 * logs: the same bytes. Only the library is called; the independent implementation's items are what the logs are put together from. */
#include <string.h>

#include "capture_calls.h"

typedef struct {
    uint8_t bytes[VIN_LOG_MAX];
    size_t length;
} bus_log;

static drawn other; /* the second capture; the first is the_case */
static bus_log mine, theirs, read_first, read_other, picked_first, picked_other;

/* The items of a drawn log on the buses; false where it has a fault, or would be refused by the plan. */
static bool draw_picked(drawn *d, uint16_t buses, bus_log *out)
{
    vin_answer a;
    draw_log(d);
    a = vin_pick(d->log, d->log_len, buses, out->bytes, sizeof out->bytes);
    out->length = (size_t)a.bytes;
    return a.number == VIN_DONE;
}

/* Both logs' items in one log, by turns as drawn: those of each keep their order. */
static void interleave(const bus_log *one, const bus_log *two, drawn *d)
{
    static log_writer made;
    const bus_log *logs[] = {one, two};
    uint64_t bits[] = {0, 0};
    bool ended[] = {false, false};
    log_begin(&made);
    while (!ended[0] || !ended[1]) {
        uint32_t which = ended[0] || (!ended[1] && one_in(2));
        item i;
        if (log_next(logs[which]->bytes, logs[which]->length, &bits[which], &i) == STANDS_ITEM)
            log_put(&made, &i);
        else
            ended[which] = true;
    }
    d->log_len = (size_t)log_end(&made);
    memcpy(d->log, made.bytes, d->log_len < VIN_LOG_MAX ? d->log_len : VIN_LOG_MAX);
}

/* What is mine, among items of the other buses. */
static void draw_among(drawn *d, uint16_t buses)
{
    while (!draw_picked(d, (uint16_t)~buses, &theirs)) {}
    interleave(&mine, &theirs, d);
}

/* Composes the log with drawn times, as many as are needed. */
static vin_answer compose_case(drawn *d)
{
    const drawn_plan *p = &d->plan;
    vin_answer a;
    d->times_len = 0;
    for (size_t n = 0; n < DRAWN_TIMES_MAX; n += 8) {
        memset(d->times + n, 0, 8);
        d->times[n + 6] = (uint8_t)draw(256);
    }
    a = vin_compose_full(PLAN_NUMBERS(*p), p->kinds, 16, d->log, d->log_len, d->times, 0, d->capture, DRAWN_CAPTURE_MAX);
    if (a.number == VIN_TIMES)
        a = vin_compose_full(PLAN_NUMBERS(*p), p->kinds, 16, d->log, d->log_len, d->times, 8 * (size_t)a.place, d->capture, DRAWN_CAPTURE_MAX);
    d->capture_len = (size_t)a.bytes;
    return a;
}

static vin_answer read_case(const drawn *d, bus_log *out)
{
    static uint8_t times[8 * VIN_READ_GROUPS_MAX];
    const drawn_plan *p = &d->plan;
    vin_answer a = vin_read_full(PLAN_NUMBERS(*p), p->kinds, 16, d->capture, d->capture_len, out->bytes, sizeof out->bytes, times, sizeof times);
    out->length = (size_t)a.bytes;
    return a;
}

/* Another plan with the same bus kinds. */
static void draw_other_plan(void)
{
    uint32_t used = 0, high = 0;
    for (uint32_t bus = 0; bus < 16; bus++) {
        used += the_case.plan.kinds[bus] != 0;
        high += bus > 7 && the_case.plan.kinds[bus] != 0;
    }
    do
        draw_plan(&other);
    while (!other.legal);
    memcpy(other.plan.kinds, the_case.plan.kinds, 16);
    if (used != 1)
        other.plan.tracks = 1;
    if (high != 0)
        other.plan.parity = 0;
}

/* 0: the law held. Another number: a log of the case was refused, and nothing is said. */
static void buses_case(void)
{
    uint16_t buses = (uint16_t)draw(65536);
    vin_answer first, second, one, two;
    do
        draw_plan(&the_case);
    while (!the_case.legal);
    draw_other_plan();
    do {
        while (!draw_picked(&the_case, buses, &mine)) {}
        draw_among(&the_case, buses);
        draw_among(&other, buses);
    } while (the_case.log_len > VIN_LOG_MAX || other.log_len > VIN_LOG_MAX);
    first = compose_case(&the_case);
    second = compose_case(&other);
    if (first.number != VIN_DONE || second.number != VIN_DONE) {
        law_answered(first.number != VIN_DONE ? first.number : second.number);
        return;
    }
    first = read_case(&the_case, &read_first);
    second = read_case(&other, &read_other);
    if (first.number != VIN_DONE || second.number != VIN_DONE)
        law_broken("what was composed is read");
    one = vin_pick(read_first.bytes, read_first.length, buses, picked_first.bytes, sizeof picked_first.bytes);
    two = vin_pick(read_other.bytes, read_other.length, buses, picked_other.bytes, sizeof picked_other.bytes);
    if (one.number != VIN_DONE || two.number != VIN_DONE || one.bytes != two.bytes || memcmp(picked_first.bytes, picked_other.bytes, (size_t)one.bytes) != 0)
        law_broken("the words on some buses tell the items on them");
    if (one.bytes != mine.length || memcmp(picked_first.bytes, mine.bytes, mine.length) != 0)
        law_broken("the items on some buses are those that were composed");
    law_answered(VIN_DONE);
}

/* 3: a drawn item is on a bus of another kind. 15: a drawn notice is open. */
const compared buses_function = {"buses", "y..y...........y", buses_case};
