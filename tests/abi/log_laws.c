/* Laws our scripts lean on (document 02, K12), "where every call named succeeds": calls of vin_pick, vin_join and vin_shift in one order
 * and in another, of drawn logs without faults, give the same bytes. Only the library is called. */
#include <string.h>

#include "../../include/vinculampe.h"
#include "log_calls.h"

#define MOST INT64_C(31622400000000)

enum { ROW_MOST = 83 }; /* bytes: ten entries, and spare bytes */

typedef struct {
    uint8_t bytes[VIN_LOG_MAX];
    size_t length;
} script_log;

typedef struct {
    uint8_t bytes[ROW_MOST];
    size_t length;
} script_row;

/* The number of the first call of the case that did not succeed. */
static uint32_t refused_by;

static size_t written(vin_answer a)
{
    if (refused_by == 0)
        refused_by = a.number;
    return (size_t)a.bytes;
}

static void pick(const script_log *log, uint16_t buses, script_log *out)
{
    out->length = written(vin_pick(log->bytes, log->length, buses, out->bytes, sizeof out->bytes));
}

static void join(const script_log *first, const script_log *second, script_log *out)
{
    out->length = written(vin_join(first->bytes, first->length, second->bytes, second->length, out->bytes, sizeof out->bytes));
}

static void shift(const script_log *log, int64_t by, const script_row *times, script_log *out, script_row *moved)
{
    *moved = *times;
    out->length = written(vin_shift(log->bytes, log->length, by, moved->bytes, moved->length, out->bytes, sizeof out->bytes));
}

static bool same(const script_log *one, const script_log *other)
{
    return one->length == other->length && memcmp(one->bytes, other->bytes, one->length) == 0;
}

static bool same_row(const script_row *one, const script_row *other)
{
    return one->length == other->length && memcmp(one->bytes, other->bytes, one->length) == 0;
}

/* The law holds; or a call of it was refused, and nothing is said. */
static void says(const char *law, bool holds)
{
    if (refused_by == 0 && !holds)
        law_broken(law);
    law_answered(refused_by);
}

/* ==== What is drawn ==== */

/* A log without faults. */
static void draw_log_for(script_log *l)
{
    static drawn_log drawn;
    static uint8_t room[VIN_LOG_MAX];
    do
        draw_any_log(&drawn);
    while (vin_pick(drawn.bytes, drawn.length, 0, room, sizeof room).number != VIN_DONE);
    memcpy(l->bytes, drawn.bytes, drawn.length);
    l->length = drawn.length;
}

static uint16_t draw_buses(void)
{
    uint32_t some = draw(65536);
    return (uint16_t)(one_in(3) ? some | draw(65536) : some);
}

/* Most shifts are small, so that the tags of a log bear them; some go to the limits. */
static int64_t draw_by(void)
{
    static const int64_t size[] = {1, 10, 10000, 1000000, INT64_C(10000000000), MOST};
    int64_t most = size[one_in(4) ? 5 : draw(5)];
    uint64_t any = draw(0xFFFFFFFF);
    any = any << 32 | draw(0xFFFFFFFF);
    return (int64_t)(any % (2 * (uint64_t)most + 1)) - most;
}

/* Times that a small shift leaves in the range, with spare bytes behind them. */
static void draw_times(script_row *row)
{
    row->length = draw(ROW_MOST + 1);
    for (size_t n = 0; n < row->length; n++)
        row->bytes[n] = (uint8_t)draw(256);
    for (size_t n = 0; n + 8 <= row->length; n += 8) {
        row->bytes[n] = row->bytes[n + 1] = 0;
        row->bytes[n + 2] = (uint8_t)(1 + draw(VIN_TIME_LIMIT >> 40));
        if (row->bytes[n + 2] == VIN_TIME_LIMIT >> 40)
            row->bytes[n + 3] = 0;
    }
}

/* ==== The laws ==== */

static script_log a, b, c, x, y, z, left, right;
static script_row times, once, twice, other;

/* "Picking from a joined log is joining the picked logs." */
static void pick_of_join(void)
{
    uint16_t buses = draw_buses();
    draw_log_for(&a);
    draw_log_for(&b);
    join(&a, &b, &x);
    pick(&x, buses, &left);
    pick(&a, buses, &y);
    pick(&b, buses, &z);
    join(&y, &z, &right);
    says("picking from a joined log is joining the picked logs", same(&left, &right));
}

/* "Picking twice is picking the common buses." */
static void pick_twice(void)
{
    uint16_t some = draw_buses(), others = draw_buses();
    draw_log_for(&a);
    pick(&a, some, &x);
    pick(&x, others, &left);
    pick(&a, some & others, &right);
    says("picking twice is picking the common buses", same(&left, &right));
}

/* "Joining is associative," */
static void join_associates(void)
{
    draw_log_for(&a);
    draw_log_for(&b);
    draw_log_for(&c);
    join(&a, &b, &x);
    join(&x, &c, &left);
    join(&b, &c, &y);
    join(&a, &y, &right);
    says("joining is associative", same(&left, &right));
}

/* "and the empty log on either side changes nothing." */
static void join_empty(void)
{
    static const script_log empty = {{0}, 1};
    draw_log_for(&a);
    join(&a, &empty, &left);
    join(&empty, &a, &right);
    says("the empty log on either side changes nothing", same(&left, &a) && same(&right, &a));
}

/* "Shifting by a, then by b, is shifting by a + b,"; and where the two succeed and a + b is within the limits, the one succeeds. */
static void shift_twice(void)
{
    int64_t by = draw_by(), then = one_in(4) ? draw(3) - by - 1 : draw_by();
    bool both;
    draw_log_for(&a);
    draw_times(&times);
    shift(&a, by, &times, &x, &once);
    shift(&x, then, &once, &left, &twice);
    both = refused_by == 0;
    shift(&a, by + then, &times, &right, &other);
    if (both && refused_by != 0 && by + then <= MOST && by + then >= -MOST)
        law_broken("where two shifts succeed, the one succeeds");
    says("shifting by a, then by b, is shifting by a + b", same(&left, &right) && same_row(&twice, &other));
}

/* "and by 0 changes nothing." */
static void shift_none(void)
{
    draw_log_for(&a);
    draw_times(&times);
    shift(&a, 0, &times, &x, &once);
    says("shifting by 0 changes nothing", same(&x, &a) && same_row(&once, &times));
}

/* "Picking and shifting may change places." */
static void pick_shift(void)
{
    uint16_t buses = draw_buses();
    int64_t by = draw_by();
    draw_log_for(&a);
    draw_times(&times);
    pick(&a, buses, &x);
    shift(&x, by, &times, &left, &once);
    shift(&a, by, &times, &y, &other);
    pick(&y, buses, &right);
    says("picking and shifting may change places", same(&left, &right) && same_row(&once, &other));
}

static void laws_case(void)
{
    static void (*const laws[])(void) = {pick_of_join, pick_twice, join_associates, join_empty, shift_twice, shift_none, pick_shift};
    refused_by = 0;
    laws[draw(sizeof laws / sizeof *laws)]();
}

/* 0: the law held. 6 and 17: nothing is said, because a joined log would be above the limit, or a shift is more than a time can bear. */
const compared laws_function = {"laws", "y.....y..........y", laws_case};
