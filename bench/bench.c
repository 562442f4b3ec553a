/* Times the library against bench/fast_*.c: compose, read and read_closed, over kinds of traffic, plans and sizes.
 *
 *     bench [SAMPLES [ROWS]]     the best of so many samples is taken, 9 if none are named; only rows whose name has ROWS in it
 *
 * LOGS=16 in the environment: a row is sixteen drawn logs, or as many as it says, and the calls take them in turn, so that the processor
 * does not learn one log's branches by heart.
 *
 * A word is a stored word of the capture: sync, frame time, data, fill and CRC words alike. Before a row is timed, both must give what
 * the independent implementation gives. */
#include <stdio.h>
#include <stdlib.h>
#include <string.h>

#include "fast.h"
#include "table.h"
#include "traffic.h"

/* A drawn log of the row, and its capture. */
typedef struct {
    traffic t;
    uint8_t capture[VIN_CAPTURE_MAX];
    size_t capture_len;
} drawn;

static drawn logs[LOGS_MAX];
static int turn; /* the log that the next call takes */
static uint8_t log_out[VIN_LOG_MAX], times_out[VIN_READ_GROUPS_MAX * 8], expected[VIN_CAPTURE_MAX];

static drawn *in_turn(void)
{
    drawn *d = &logs[turn];
    turn = turn + 1 < logs_in_turn() ? turn + 1 : 0;
    return d;
}

#define PLAN(d) d->t.words, d->t.tracks, d->t.frame_time, d->t.crc, d->t.parity, d->t.kinds, 16
#define LOG(d) d->t.log, d->t.log_len, d->t.times, d->t.times_len
#define READ_INTO(d) d->capture, d->capture_len, log_out, sizeof log_out, times_out, sizeof times_out

static vin_answer call_compose(enum who who)
{
    drawn *d = in_turn();
    return (who == FAST ? fast_compose : vin_compose)(PLAN(d), LOG(d), d->capture, sizeof d->capture);
}

static vin_answer call_read(enum who who)
{
    drawn *d = in_turn();
    return (who == FAST ? fast_read : vin_read)(PLAN(d), READ_INTO(d));
}

static vin_answer call_read_closed(enum who who)
{
    drawn *d = in_turn();
    return (who == FAST ? fast_read_closed : vin_read_closed)(PLAN(d), READ_INTO(d));
}

enum { COMPOSE, READ, READ_CLOSED, FUNCTIONS };
static const column columns[FUNCTIONS] = {{"compose", call_compose}, {"read", call_read}, {"read_closed", call_read_closed}};

/* Both compose of log n what the independent implementation composes, and read it back. Leaves the capture composed. */
static void agree(int n)
{
    drawn *d = &logs[n];
    ind_answer a = ind_compose(PLAN(d), LOG(d), expected, sizeof expected);
    if (a.number != 0) {
        printf("%s: the row itself is refused by %u at %llu\n", d->t.name, a.number, (unsigned long long)a.place);
        exit(1);
    }
    for (enum who who = LIBRARY; who <= FAST; who++) {
        vin_answer v;
        turn = n;
        v = call_compose(who);
        must_agree(v.number == 0 && v.bytes == a.bytes && memcmp(d->capture, expected, a.bytes) == 0, d->t.name, who, columns[COMPOSE].name);
        d->capture_len = v.bytes;
        for (int f = READ; f <= READ_CLOSED; f++) {
            memset(log_out, 0xFF, sizeof log_out);
            turn = n;
            v = columns[f].call(who);
            must_agree(v.number == 0 && v.bytes == d->t.log_len && memcmp(log_out, d->t.log, d->t.log_len) == 0
                           && v.times == d->t.times_len / 8 && memcmp(times_out, d->t.times, d->t.times_len) == 0,
                       d->t.name, who, columns[f].name);
        }
    }
}

/* The largest capture: what was composed, and groups of fill up to 1,048,576 bytes. The closed reading refuses it, so it is read plain. */
static void largest(drawn *d)
{
    ind_answer a;
    while (d->capture_len + VIN_GROUP_BYTES(d->t.words, d->t.tracks) <= VIN_CAPTURE_MAX)
        d->capture_len += traffic_fill(&d->t, d->capture + d->capture_len);
    a = ind_read(PLAN(d), d->capture, d->capture_len, expected, VIN_LOG_MAX, times_out, sizeof times_out);
    for (enum who who = LIBRARY; who <= FAST; who++) {
        vin_answer v = call_read(who);
        must_agree(v.number == a.number && v.bytes == a.bytes && memcmp(log_out, expected, a.bytes) == 0, d->t.name, who, columns[READ].name);
    }
    line_begin("  the same, and fill up to 1,048,576 bytes", d->capture_len / 3);
    line_blank();
    line_figure(READ, (double)d->capture_len / 3);
    line_end();
}

int main(int argc, char **argv)
{
    int count = logs_in_turn();
    table_begin(argc, argv, "a word", "words", "traffic, plan, size", columns, FUNCTIONS);
    for (int row = 0; traffic_row(&logs[0].t, row, 0); row++) {
        double words = 0;
        if (!is_wanted(logs[0].t.name))
            continue;
        for (int n = 0; n < count; n++) {
            traffic_row(&logs[n].t, row, n);
            agree(n);
            words += (double)logs[n].capture_len / 3 / count;
        }
        turn = 0;
        line_begin(logs[0].t.name, (size_t)words);
        for (int f = 0; f < FUNCTIONS; f++)
            line_figure(f, words);
        line_end();
        if (count == 1 && logs[0].t.then_largest)
            largest(&logs[0]);
    }
    table_end();
    return 0;
}
