/* vin_shift (document 02, K9): shifts of every size, around the limits of 64 bits and of the request, and around what a tag or a frame
 * time of the case can bear; rows of any numbers, with spare bytes. */
#include <string.h>

#include "../../include/vinculampe.h"
#include "../../independent/rules.h"
#include "log_calls.h"

#define MOST INT64_C(31622400000000)

enum { ROW_MOST = 4096 }; /* entries */

static drawn_log the_log;
static uint8_t row[8 * ROW_MOST + 8];
static size_t row_len;

/* ==== What is drawn ==== */

static uint64_t draw_64(void)
{
    uint64_t high = draw(0xFFFFFFFF);
    return high << 32 | draw(0xFFFFFFFF);
}

/* A tag of the log, of its first items; 0 if these have none. */
static uint64_t draw_tag(void)
{
    uint64_t bit = 0, time = 0;
    item i;
    for (uint32_t left = 1 + draw(12); left > 0 && log_next(the_log.bytes, the_log.length, &bit, &i) == STANDS_ITEM; left--)
        if (i.tagged)
            time = time_join(i.time);
    return time;
}

/* A shift by which a time just stays within the range, or just does not. */
static int64_t draw_edge(uint64_t time)
{
    int64_t one = (int64_t)draw(3) - 1;
    return one_in(2) ? one - (int64_t)time : (int64_t)(VIN_TIME_LIMIT - 1 - time) + one;
}

static int64_t draw_shift(void)
{
    static const int64_t edges[] = {INT64_MIN, INT64_MIN + 1, INT64_MAX, -MOST - 1, -MOST, -MOST + 1, MOST - 1, MOST, MOST + 1, 0,
                                    -1, 1, -9999, 10000, INT64_C(-4294967296), INT64_C(4294967296)};
    uint64_t any = draw_64();
    switch (draw(8)) {
    case 0: return edges[draw(sizeof edges / sizeof *edges)];
    case 1: return draw_edge(draw_tag());
    case 2: return (int64_t)(any % (2 * (uint64_t)MOST + 10)) - MOST - 5;
    case 3: return one_in(4) ? (int64_t)(any >> 1) - INT64_MAX / 2 : (int64_t)(any % 1000000000000);
    default: return (int64_t)(any % 2000001) - 1000000;
    }
}

/* A frame time: one that can be moved, one around what can be, or any number. */
static uint64_t draw_time(int64_t by, bool faults)
{
    uint64_t any = draw_64(), low = by < 0 ? 0 - (uint64_t)by : 0, high = VIN_TIME_LIMIT - (uint64_t)by;
    if (faults && one_in(8)) {
        static const uint64_t edges[] = {0, UINT64_MAX, UINT64_C(1) << 63, (UINT64_C(1) << 63) - 1, VIN_TIME_LIMIT, VIN_TIME_LIMIT + MOST,
                                         VIN_TIME_LIMIT + MOST + 1};
        uint32_t how = draw(4);
        return how == 0 ? any : how == 1 ? edges[draw(sizeof edges / sizeof *edges)] : (how == 2 ? low : high) - 2 + draw(4);
    }
    if (one_in(8))
        return one_in(2) ? low : high - 1;
    return low + any % (VIN_TIME_LIMIT - 2 * (uint64_t)(by > 0 && by <= MOST ? by / 2 + 1 : 0));
}

static void draw_row(int64_t by)
{
    bool faults = one_in(2);
    size_t entries = one_in(200) ? draw(ROW_MOST + 1) : one_in(4) ? 0 : draw(9);
    row_len = 8 * entries + (one_in(3) ? draw(8) : 0);
    for (size_t n = 0; n < entries; n++) {
        uint64_t time = draw_time(by, faults);
        for (int i = 0; i < 8; i++)
            row[8 * n + (size_t)i] = (uint8_t)(time >> (56 - 8 * i));
    }
    for (size_t n = 8 * entries; n < row_len; n++)
        row[n] = (uint8_t)draw(256);
}

/* ==== The call ==== */

enum { NO_NULL, NULLS }; /* numbers[1] */

static uint8_t *null_for_none(const call *c, uint8_t *const at[], size_t n)
{
    return c->runs[n].length == 0 ? NULL : at[n];
}

static outcome library(const call *c, uint8_t *const at[])
{
    int64_t by = (int64_t)c->numbers[0];
    const lent_run *r = c->runs;
    vin_answer a;
    if (c->numbers[1] == NULLS)
        a = vin_log_shift(null_for_none(c, at, 0), r[0].length, by, null_for_none(c, at, 1), r[1].length, null_for_none(c, at, 2),
                          r[2].length);
    else
        a = vin_shift(at[0], r[0].length, by, at[1], r[1].length, at[2], r[2].length);
    return (outcome){{a.number, a.place, a.second, a.bytes, a.times, 0, 0}};
}

static outcome independent(const call *c, uint8_t *const at[])
{
    ind_answer a =
        ind_shift(at[0], c->runs[0].length, (int64_t)c->numbers[0], at[1], c->runs[1].length, at[2], c->runs[2].length);
    return (outcome){{a.number, a.place, a.second, a.bytes, a.times, 0, 0}};
}

static outcome shift(int64_t by, size_t room)
{
    call c = {{{READ_ONLY, the_log.bytes, the_log.length, 0, 0}, {ROW, row, row_len, MORE, 8}, {ROOM, NULL, room, BYTES, 1}},
              3,
              {(uint64_t)by, draw(2)},
              library,
              independent};
    return compare(&c);
}

static void shift_case(void)
{
    int64_t by;
    outcome o;
    draw_any_log(&the_log);
    by = draw_shift();
    draw_row(by);
    o = shift(by, one_in(2) ? 0 : the_log.length);
    if (o.of[NUMBER] == VIN_ROOM || o.of[NUMBER] == VIN_DONE)
        shift(by, draw_room(the_log.length));
}

/* "2, 4 as in composing; 17 ..; 6 last" */
const compared shift_function = {"shift", "y.y.y.y..........y", shift_case};
