/* vin_replay (document 02, K13): small buffers that run full, again and again; large ones; rows of events of every shape; a mark in the
 * log; each limit, kept and broken; logs whose result is above the limit. */
#include <string.h>

#include "../../include/vinculampe.h"
#include "../../independent/independent.h"
#include "log_calls.h"

enum { EVENTS_ROOM = 65600 };

static drawn_log the_log;
static uint8_t events[EVENTS_ROOM];
static size_t events_length, items;

/* ==== A log ==== */

static size_t bit;

static void put(uint32_t width, uint64_t value)
{
    for (; width > 0; width--, bit++)
        if (value >> (width - 1) & 1)
            the_log.bytes[bit / 8] |= (uint8_t)(0x80 >> bit % 8);
}

static void put_any(uint32_t width)
{
    put(width, draw((uint32_t)1 << width));
}

static void put_tag(void)
{
    put_any(16);
    put_any(16);
    put(14, draw(10000));
}

/* An item of any kind but a mark. */
static void put_item(uint32_t bus)
{
    static const uint8_t kinds[] = {1, 1, 2, 3, 4, 5, 5, 6, 7};
    uint32_t kind = kinds[draw(sizeof kinds)], flag = draw(2);
    put(4, kind);
    put(4, bus);
    if (kind == 6) {
        put_any(10);
        return;
    }
    put_any(kind == 5 ? 2 : 1);
    if (kind == 1 || kind == 2 || kind == 5)
        put(1, flag);
    put_any(16);
    if (kind == 5)
        put_any(16);
    if (flag && (kind == 1 || kind == 5))
        put_tag();
    if (flag && kind == 2)
        put(14, draw(10000));
}

static void put_mark(void)
{
    put(4, 8);
    put_any(4);
    put_any(16);
}

static void put_end(void)
{
    put(4, 0);
    the_log.length = (bit + 7) / 8;
    the_log.used = the_log.length + 1;
}

static uint32_t draw_count(void)
{
    switch (draw(16)) {
    case 0: return draw(3);
    case 1: return one_in(60) ? 3000 : draw(300);
    default: return draw(40);
    }
}

static void draw_log_without_marks(void)
{
    uint32_t count = draw_count(), buses = one_in(3) ? 16 : 1 + draw(4), marked = one_in(16) ? draw(count + 1) : count + 1;
    memset(the_log.bytes, 0, the_log.used);
    bit = 0;
    for (uint32_t n = 0; n < count; n++) {
        if (n == marked)
            put_mark();
        put_item(draw(buses));
    }
    if (marked == count)
        put_mark();
    put_end();
    items = count; /* a log with a mark is refused, however many arrive */
}

/* A fault behind the items: a byte too few or too many, or a response of 10000 or more. */
static void draw_fault(void)
{
    switch (draw(3)) {
    case 0: the_log.length--; break;
    case 1: the_log.length++; break;
    default:
        bit -= 4; /* over the end mark */
        put(8, 0x25);
        put(18, UINT32_C(1) << 16 | draw(65536));
        put(14, 10000 + draw(6384));
        put_end();
    }
}

/* ==== Events ==== */

enum { ARRIVES, LEAVES };

/* So many arrivals, with groups between them: none, now and then, or one after each few. */
static void draw_events(size_t arrivals)
{
    uint32_t rare = 1 + draw(20), every = one_in(3) ? 1 + draw(12) : 0, fill = draw(30), row = 0;
    events_length = 0;
    for (size_t n = 0; n < arrivals; n++) {
        events[events_length++] = ARRIVES;
        row++;
        while (n > fill && events_length < 65000 && (every > 0 ? row == every : one_in(rare))) {
            events[events_length++] = LEAVES;
            row = 0;
            if (rare < 3)
                break;
        }
    }
    for (uint32_t n = draw(4); n > 0; n--)
        events[events_length++] = LEAVES;
}

/* An event of neither kind, one arrival too many, or 65,535 events and one more. */
static void spoil_events(void)
{
    switch (draw(4)) {
    case 0:
        if (events_length > 0)
            events[draw((uint32_t)events_length)] = (uint8_t)(one_in(2) ? 2 : 2 + draw(254));
        break;
    case 1:
        draw_events(items + 1);
        break;
    default:
        if (one_in(6)) {
            size_t length = 65535 + draw(2);
            memset(events + events_length, LEAVES, length - events_length);
            events_length = length;
        }
    }
}

/* Notices, of 18 bits, on the last bus: eight fill the buffer, then one is lost and one stored in turn, with its mark of 24. */
static void draw_above_limit(uint32_t *capacity, uint32_t *slots)
{
    uint32_t pairs = 6236 + draw(6); /* 18 x 8 + 42 x 6238 + 4 bits are 32,768 bytes */
    memset(the_log.bytes, 0, the_log.used);
    bit = 0;
    for (uint32_t n = 0; n < 8 + 2 * pairs; n++) {
        put(8, 0x6F);
        put(10, n % 1024);
    }
    put_end();
    memset(events, ARRIVES, 8 + 3 * pairs);
    for (uint32_t n = 0; n < pairs; n++)
        events[8 + 3 * n + 1] = LEAVES;
    events_length = 8 + 3 * pairs;
    *capacity = 8;
    *slots = 2;
}

static uint32_t draw_limit(uint32_t least, uint32_t most)
{
    static const uint32_t far[] = {0, 7, 65535, 65536, 0x7FFFFFFF, 0x80000008, 0xFFFFFFFF};
    switch (draw(4)) {
    case 0: return least - 1;
    case 1: return most + 1;
    case 2: return one_in(2) ? least : most;
    default: return far[draw(7)];
    }
}

/* ==== A case ==== */

static outcome library(const call *c, uint8_t *const at[])
{
    uint32_t capacity = (uint32_t)c->numbers[0], slots = (uint32_t)c->numbers[1];
    vin_replayed a = c->numbers[2] == 1
                         ? vin_log_replay(c->runs[0].length ? at[0] : NULL, c->runs[0].length, c->runs[1].length ? at[1] : NULL,
                                          c->runs[1].length, capacity, slots, c->runs[2].length ? at[2] : NULL, c->runs[2].length)
                         : vin_replay(at[0], c->runs[0].length, at[1], c->runs[1].length, capacity, slots, at[2], c->runs[2].length);
    return (outcome){{a.number, a.place, a.second, a.bytes, a.sent, a.lost, a.held}};
}

static outcome independent(const call *c, uint8_t *const at[])
{
    ind_replayed a = ind_replay(at[0], c->runs[0].length, at[1], c->runs[1].length, (uint32_t)c->numbers[0], (uint32_t)c->numbers[1], at[2],
                                c->runs[2].length);
    return (outcome){{a.number, a.place, a.second, a.bytes, a.sent, a.lost, a.held}};
}

static outcome replay(uint32_t capacity, uint32_t slots, size_t room)
{
    call c = {{{READ_ONLY, the_log.bytes, the_log.length, 0, 0}, {READ_ONLY, events, events_length, 0, 0}, {ROOM, NULL, room, BYTES, 1}},
              3,
              {capacity, slots, draw(2)},
              library,
              independent};
    return compare(&c);
}

static void one_case(void)
{
    uint32_t capacity = one_in(4) ? 8 + draw(4089) : 8 + draw(12), slots = one_in(4) ? 1 + draw(2048) : 1 + draw(8);
    outcome o;
    if (one_in(20)) { /* with faults, or marks anywhere */
        draw_any_log(&the_log);
        items = draw(8);
    } else {
        draw_log_without_marks();
        if (one_in(24))
            draw_fault();
    }
    draw_events(one_in(2) ? items : draw((uint32_t)items + 1));
    if (one_in(12))
        spoil_events();
    if (one_in(24))
        capacity = draw_limit(8, 4096);
    if (one_in(24))
        slots = draw_limit(1, 2048);
    if (one_in(1000))
        draw_above_limit(&capacity, &slots);
    o = replay(capacity, slots, one_in(2) ? 0 : VIN_REPLAYED_BYTES(the_log.length));
    if (o.of[NUMBER] == VIN_ROOM || o.of[NUMBER] == VIN_DONE)
        replay(capacity, slots, draw_room(o.of[NUMBER] == VIN_ROOM ? o.of[PLACE] : o.of[BYTES]));
}

/* "Refusals: 2, 4 as in composing; then 19 ..; then 6." */
const compared replay_function = {"replay", "y.y.y.y............y", one_case};
