/* vin_profile (document 02, K11): logs that keep the one-bus profile, logs that break one rule of it, mostly late, logs of all kinds of
 * items, and logs with a fault. Where a log is drawn to pass, or to break a rule at an item, that must be the answer. */
#include <inttypes.h>
#include <stdio.h>
#include <stdlib.h>
#include <string.h>

#include "../../include/vinculampe.h"
#include "../../independent/independent.h"
#include "log_calls.h"

#define TIME_MOST UINT64_C(42949672959999)

static drawn_log the_log;

/* What the log is drawn to be answered with. */
static struct {
    bool known;
    uint32_t number;
    uint64_t place;
} meant;

/* ==== A log by the profile ==== */

/* Where the drawing stands: the log's one bus, the last tag, and the side that a command without one may have. */
static struct {
    size_t bit;
    uint32_t bus, licence; /* 0 or 1; 2: none */
    uint64_t time;
} at;

static void put(uint32_t width, uint64_t value)
{
    for (; width > 0; width--, at.bit++)
        if (value >> (width - 1) & 1)
            the_log.bytes[at.bit / 8] |= (uint8_t)(0x80 >> at.bit % 8);
}

static void put_word(void)
{
    static const uint32_t edges[] = {0, 1, 0xAAAA, 0xFFFF};
    put(16, one_in(6) ? edges[draw(4)] : draw(65536));
}

/* A response. */
static void put_response(void)
{
    put(14, one_in(4) ? 9999 : draw(10000));
}

static void put_head(uint32_t kind, uint32_t bus)
{
    put(4, kind);
    put(4, bus);
    at.licence = 2;
}

static void put_tag(uint64_t time)
{
    put(32, time / 10000);
    put(14, time % 10000);
}

static void put_command(uint32_t bus, uint32_t b, bool tagged)
{
    put_head(1, bus);
    put(1, b);
    put(1, tagged);
    put_word();
}

/* The same time, one microsecond later, or up to a carry or two beyond. */
static void pass_time(void)
{
    static const uint32_t most[] = {1, 2, 300, 20000, 1000000000, 0xFFFFFFFF};
    uint32_t kind = draw(6);
    uint64_t more = draw(most[kind]);
    if (kind == 5)
        more = more * 20;
    if (at.time + more <= TIME_MOST)
        at.time += more;
}

static void put_tagged(uint32_t b)
{
    pass_time();
    put_command(at.bus, b, true);
    put_tag(at.time);
    at.licence = b;
}

/* An item that keeps every rule and gives no licence: a status with its response, data, a bus error, a mark. */
static void put_free(void)
{
    uint32_t kind = draw(4);
    if (kind == 0) {
        put_head(2, at.bus);
        put(2, 1 + 2 * draw(2));
        put_word();
        put_response();
    } else if (kind < 3) {
        put_head(2 + kind, at.bus);
        put(1, draw(2));
        put_word();
    } else {
        put_head(8, at.bus);
        put_word();
    }
}

static void put_good(void)
{
    if (at.licence < 2 && one_in(2))
        put_command(at.bus, at.licence, false);
    else if (one_in(3))
        put_tagged(draw(2));
    else
        put_free();
}

/* ==== And an item that breaks a rule ==== */

/* A good item, but on another bus. */
static void put_elsewhere(void)
{
    uint32_t bus = at.bus;
    at.bus = (at.bus + 1 + draw(15)) % 16;
    if (one_in(2))
        put_tagged(draw(2));
    else
        put_free();
    at.bus = bus;
    at.licence = 2;
}

/* A command without its tag: behind one of the other side, behind another without, or behind an item that ended the licence. */
static size_t put_bare(void)
{
    uint32_t b = draw(2), how = draw(4);
    size_t here;
    if (how > 0)
        put_tagged(how == 1 ? 1 - b : b);
    if (how == 2)
        put_command(at.bus, b, false);
    if (how == 3)
        put_free();
    if (at.licence == b) /* how is 0 */
        b = 1 - b;
    here = at.bit;
    put_command(at.bus, b, false);
    return here;
}

/* A tag that goes back, by one or more. */
static size_t put_backward(void)
{
    size_t here;
    uint64_t back;
    put_tagged(draw(2));
    if (at.time == 0) {
        at.time = one_in(2) ? 10000 : UINT64_C(655360000);
        put_command(at.bus, draw(2), true);
        put_tag(at.time);
    }
    if (one_in(2))
        put_free();
    back = one_in(3) ? 1 : 1 + draw(30000);
    if (one_in(4))
        back *= 50000;
    here = at.bit;
    put_command(at.bus, draw(2), true);
    put_tag(at.time - (back < at.time ? back : at.time));
    return here;
}

enum { OTHER_BUS, ARINC, NOTICE, BARE_COMMAND, NO_RESPONSE, TAG_BACK, USER, RULES };

/* Puts what breaks a rule; returns the bit of the item that breaks it. */
static size_t put_bad(uint32_t rule)
{
    size_t here = at.bit;
    uint32_t tagged = draw(2);
    switch (rule) {
    case OTHER_BUS:
        put_elsewhere();
        return here;
    case ARINC: /* on the same bus */
        put_head(5, at.bus);
        put(2, draw(4));
        put(1, tagged);
        put_word();
        put_word();
        if (tagged)
            put_tag(at.time);
        return here;
    case NOTICE:
        put_head(6, at.bus);
        put(10, draw(1024));
        return here;
    case BARE_COMMAND:
        return put_bare();
    case NO_RESPONSE:
        put_head(2, at.bus);
        put(2, 2 * draw(2));
        put_word();
        return here;
    case TAG_BACK:
        return put_backward();
    default:
        put_head(7, at.bus);
        put(1, draw(2));
        put_word();
        return here;
    }
}

static uint32_t draw_count(void)
{
    switch (draw(8)) {
    case 0: return draw(3);
    case 1: return one_in(20) ? 12000 : draw(200);
    default: return draw(24);
    }
}

/* The end mark, of zero bits, and the length. */
static void put_end(void)
{
    put(4, 0);
    the_log.length = (at.bit + 7) / 8;
    the_log.used = the_log.length + 1;
}

/* A log that keeps the profile, or breaks one rule of it behind so many items, and perhaps others behind that. */
static void draw_profile_log(bool broken)
{
    uint32_t count = draw_count(), behind = draw(4), start = draw(4);
    memset(the_log.bytes, 0, the_log.used);
    at.bit = 0;
    at.bus = draw(16);
    at.licence = 2;
    at.time = start == 0 ? TIME_MOST - draw(3) : start == 1 ? draw(3) : UINT64_C(655360000) * draw(65536);
    meant.known = true;
    meant.number = 0;
    meant.place = 0;
    while (count-- > 0 && at.bit < 8 * 32000)
        put_good();
    if (broken) {
        uint32_t rule = draw(RULES);
        if (at.bit == 0 && rule == OTHER_BUS)
            put_good();
        meant.place = put_bad(rule);
        meant.number = VIN_PROFILE;
        for (; behind > 0; behind--) {
            if (one_in(4))
                put_bad(draw(RULES));
            else
                put_good();
        }
    }
    put_end();
}

/* The log cut or too long, a byte behind its end, or behind its items a response of 10000 or more. */
static void draw_fault(void)
{
    meant.known = false;
    switch (draw(5)) {
    case 0: the_log.length = draw((uint32_t)the_log.length + 1); break;
    case 1: the_log.length--; break;
    case 2: the_log.length++; break;
    case 3: the_log.length = VIN_LOG_MAX + 1 + draw(2); break;
    default:
        at.bit -= 4; /* over the end mark */
        put_head(2, at.bus);
        put(2, 1 + 2 * draw(2));
        put_word();
        put(14, one_in(2) ? 10000 : 10000 + draw(6384));
        put_end();
    }
}

/* ==== A case ==== */

static outcome of_vin(vin_answer a)
{
    return (outcome){{a.number, a.place, a.second, a.bytes, a.times, 0, 0}};
}

static outcome of_ind(ind_answer a)
{
    return (outcome){{a.number, a.place, a.second, a.bytes, a.times, 0, 0}};
}

static outcome library(const call *c, uint8_t *const lent[])
{
    if (c->runs[0].length == 0 && c->numbers[0] == 1)
        return of_vin(vin_log_profile(NULL, 0));
    return of_vin(vin_profile(lent[0], c->runs[0].length));
}

static outcome independent(const call *c, uint8_t *const lent[])
{
    return of_ind(ind_profile(lent[0], c->runs[0].length));
}

static void draw_case(void)
{
    uint32_t how = draw(16);
    if (how == 0) { /* all kinds of items */
        meant.known = false;
        draw_any_log(&the_log);
        return;
    }
    draw_profile_log(how < 9);
    if (how == 1 || how == 15)
        draw_fault();
}

static void one_case(void)
{
    draw_case();
    call c = {{{READ_ONLY, the_log.bytes, the_log.length, 0, 0}}, 1, {draw(2)}, library, independent}; /* the number: a null pointer for no bytes */
    outcome o = compare(&c);
    if (meant.known && (o.of[NUMBER] != meant.number || o.of[PLACE] != meant.place)) {
        printf("vin_profile: a log drawn for %" PRIu32 " at %" PRIu64 " is answered by both with %" PRIu64 " at %" PRIu64 "\n",
               meant.number, meant.place, o.of[NUMBER], o.of[PLACE]);
        abort(); /* the driver says which case it is */
    }
}

/* "Refusals: 2, 4 as in composing; then 18" */
const compared profile_function = {"profile", "y.y.y.............y", one_case};
