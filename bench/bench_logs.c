/* Times the functions on logs alone against bench/fast_*.c, over kinds of traffic and sizes.
 *
 *     bench_logs [SAMPLES [ROWS]]     as bench.c
 *
 * A figure is nanoseconds an item of the logs lent. Before a row is timed, both must give what the independent implementation gives. A
 * function is its calls, its column and what logs it takes. */
#include <string.h>

#include "fast.h"
#include "table.h"
#include "traffic.h"

static traffic t;
static uint8_t out[VIN_LOG_MAX], expected[VIN_LOG_MAX];
static uint8_t *to = out;

/* ==== The calls ==== */

/* Every other bus. */
static vin_answer call_pick(enum who who)
{
    if (who == INDEPENDENT)
        return as_vin(ind_pick(t.log, t.log_len, 0x5555, to, VIN_LOG_MAX));
    return (who == FAST ? fast_pick : vin_pick)(t.log, t.log_len, 0x5555, to, VIN_LOG_MAX);
}

/* The log with itself; a full log would be above the limit. */
static vin_answer call_join(enum who who)
{
    if (who == INDEPENDENT)
        return as_vin(ind_join(t.log, t.log_len, t.log, t.log_len, to, VIN_LOG_MAX));
    return (who == FAST ? fast_join : vin_join)(t.log, t.log_len, t.log, t.log_len, to, VIN_LOG_MAX);
}

/* Forward by a microsecond, without frame times: in the traffic no tag is so late that it would leave the range. */
static vin_answer call_shift(enum who who)
{
    uint8_t none[1] = {0};
    if (who == INDEPENDENT)
        return as_vin(ind_shift(t.log, t.log_len, 1, none, 0, to, VIN_LOG_MAX));
    return (who == FAST ? fast_shift : vin_shift)(t.log, t.log_len, 1, none, 0, to, VIN_LOG_MAX);
}

/* A log that passes; nothing is written. */
static vin_answer call_profile(enum who who)
{
    if (who == INDEPENDENT)
        return as_vin(ind_profile(t.log, t.log_len));
    return (who == FAST ? fast_profile : vin_profile)(t.log, t.log_len);
}

/* All items arrive, and a group of 60 words leaves after each 32: messages of data words fit into 128, tagged ARINC words do not. The three
 * counts stand in the answer as one. */
static uint8_t events[VIN_EVENTS_MAX];
static size_t events_len;

static void make_events(void)
{
    events_len = 0;
    for (int n = 0; n < t.items; n++) {
        events[events_len++] = VIN_ITEM_ARRIVES;
        if (n % 32 == 31)
            events[events_len++] = VIN_GROUP_LEAVES;
    }
}

static vin_answer call_replay(enum who who)
{
    if (who == INDEPENDENT) {
        ind_replayed a = ind_replay(t.log, t.log_len, events, events_len, 128, 60, to, VIN_LOG_MAX);
        return (vin_answer){a.number, a.place, a.second, a.bytes, a.sent << 32 | a.lost << 16 | a.held};
    }
    vin_replayed a = (who == FAST ? fast_replay : vin_replay)(t.log, t.log_len, events, events_len, 128, 60, to, VIN_LOG_MAX);
    return (vin_answer){a.number, a.place, a.second, a.bytes, a.sent << 32 | a.lost << 16 | a.held};
}

static const column columns[] = {{"pick", call_pick},
                                 {"join", call_join},
                                 {"shift", call_shift},
                                 {"profile", call_profile},
                                 {"replay", call_replay}};
enum { FUNCTIONS = sizeof columns / sizeof *columns };

static const struct {
    size_t log_most; /* longer logs are left out */
    int logs;        /* that are lent */
    int judges;      /* logs that it refuses are left out, too */
} takes_logs[FUNCTIONS] = {{VIN_LOG_MAX, 1, 0}, {VIN_LOG_MAX / 2, 2, 0}, {VIN_LOG_MAX, 1, 0}, {VIN_LOG_MAX, 1, 1}, {VIN_LOG_MAX, 1, 1}};

static vin_answer call_into(int f, enum who who, uint8_t *room)
{
    vin_answer a;
    to = room;
    a = columns[f].call(who);
    to = out;
    return a;
}

/* Whether the row is timed. */
static int takes(int f)
{
    return t.log_len <= takes_logs[f].log_most && !(takes_logs[f].judges && call_into(f, INDEPENDENT, expected).number != 0);
}

static void agree(int f)
{
    vin_answer asked = call_into(f, INDEPENDENT, expected);
    for (enum who who = LIBRARY; who <= FAST; who++) {
        vin_answer v;
        memset(out, 0xFF, sizeof out);
        v = call_into(f, who, out);
        must_agree(asked.number == 0 && v.number == 0 && v.bytes == asked.bytes && v.times == asked.times
                       && memcmp(out, expected, v.bytes) == 0,
                   t.name, who, columns[f].name);
    }
}

int main(int argc, char **argv)
{
    table_begin(argc, argv, "an item", "items", "traffic, size of a log", columns, FUNCTIONS);
    for (int n = 0; traffic_log(&t, n); n++) {
        if (!is_wanted(t.name))
            continue;
        make_events();
        line_begin(t.name, (size_t)t.items);
        for (int f = 0; f < FUNCTIONS; f++) {
            if (!takes(f)) {
                line_blank();
                continue;
            }
            agree(f);
            line_figure(f, (double)(takes_logs[f].logs * t.items));
        }
        line_end();
    }
    table_end();
    return 0;
}
