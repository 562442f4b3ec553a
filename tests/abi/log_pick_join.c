/* vin_pick and vin_join (document 02, K7). */
#include <string.h>

#include "../../include/vinculampe.h"
#include "../../independent/independent.h"
#include "log_calls.h"

static drawn_log first, second;

static outcome of_vin(vin_answer a)
{
    return (outcome){{a.number, a.place, a.second, a.bytes, a.times, 0, 0}};
}

static outcome of_ind(ind_answer a)
{
    return (outcome){{a.number, a.place, a.second, a.bytes, a.times, 0, 0}};
}

/* A log that is only read, and the room for one. */
static lent_run given(const drawn_log *l)
{
    return (lent_run){READ_ONLY, l->bytes, l->length, 0, 0};
}

static lent_run room(size_t length)
{
    return (lent_run){ROOM, NULL, length, BYTES, 1};
}

/* A null pointer for a run of length 0, which the header's vin_log_ functions take. */
static uint8_t *null_for_none(const call *c, uint8_t *const at[], size_t n)
{
    return c->runs[n].length == 0 ? NULL : at[n];
}

/* ==== pick ==== */

enum { NO_NULL, NULLS }; /* numbers[1] */

static outcome library_pick(const call *c, uint8_t *const at[])
{
    uint16_t buses = (uint16_t)c->numbers[0];
    if (c->numbers[1] == NULLS)
        return of_vin(vin_log_pick(null_for_none(c, at, 0), c->runs[0].length, buses, null_for_none(c, at, 1), c->runs[1].length));
    return of_vin(vin_pick(at[0], c->runs[0].length, buses, at[1], c->runs[1].length));
}

static outcome independent_pick(const call *c, uint8_t *const at[])
{
    return of_ind(ind_pick(at[0], c->runs[0].length, (uint16_t)c->numbers[0], at[1], c->runs[1].length));
}

static outcome pick(uint16_t buses, size_t room_len)
{
    call c = {{given(&first), room(room_len)}, 2, {buses, draw(2)}, library_pick, independent_pick};
    return compare(&c);
}

/* Sets of few, many, all and no buses. */
static uint16_t draw_set(void)
{
    uint32_t some = draw(65536);
    switch (draw(6)) {
    case 0: return (uint16_t)(1u << draw(16));
    case 1: return (uint16_t)~(1u << draw(16));
    case 2: return one_in(2) ? 0xFFFF : 0;
    case 3: return (uint16_t)(0xFFFFu << draw(16));
    default: return (uint16_t)some;
    }
}

/* The bytes that a call with room enough would write, learnt from one that is too short or done. */
static uint64_t needed(const outcome *o)
{
    return o->of[NUMBER] == VIN_ROOM ? o->of[PLACE] : o->of[BYTES];
}

static void pick_case(void)
{
    uint16_t buses = draw_set();
    outcome o;
    draw_any_log(&first);
    o = pick(buses, one_in(2) ? 0 : first.length);
    if (needed(&o) > 0)
        pick(buses, draw_room(needed(&o)));
}

const compared pick_function = {"pick", "y.y.y.y", pick_case};

/* ==== join ==== */

static outcome library_join(const call *c, uint8_t *const at[])
{
    if (c->numbers[0] == NULLS)
        return of_vin(vin_log_join(null_for_none(c, at, 0), c->runs[0].length, null_for_none(c, at, 1), c->runs[1].length,
                                   null_for_none(c, at, 2), c->runs[2].length));
    return of_vin(vin_join(at[0], c->runs[0].length, at[1], c->runs[1].length, at[2], c->runs[2].length));
}

static outcome independent_join(const call *c, uint8_t *const at[])
{
    return of_ind(ind_join(at[0], c->runs[0].length, at[1], c->runs[1].length, at[2], c->runs[2].length));
}

static outcome join(size_t room_len)
{
    call c = {{given(&first), given(&second), room(room_len)}, 3, {draw(2)}, library_join, independent_join};
    return compare(&c);
}

/* A log of so many overflow marks, of 24 bits each. */
static void make_marks(drawn_log *l, size_t marks)
{
    memset(l->bytes, 0, l->used);
    for (size_t n = 0; n < marks; n++)
        l->bytes[3 * n] = 0x85;
    l->length = l->used = 3 * marks + 1;
}

/* Two logs that together are around the limit: 10,922 marks and the end mark are 32,767 bytes. */
static void draw_around_limit(void)
{
    size_t marks = 10922 - 2 + draw(4), front = draw((uint32_t)marks + 1);
    make_marks(&first, front);
    make_marks(&second, marks - front);
}

static void join_case(void)
{
    outcome o;
    draw_any_log(&first);
    draw_any_log(&second);
    if (one_in(1000))
        draw_around_limit();
    o = join(one_in(2) ? 0 : VIN_JOINED_BYTES(first.length, second.length));
    if (needed(&o) > 0)
        join(draw_room(needed(&o)));
}

const compared join_function = {"join", "y.y.y.y", join_case};
