/* Times the functions on captures beside composing and the readings against bench/fast_*.c, over the rows of bench.c.
 *
 *     bench_captures [SAMPLES [ROWS]]     as bench.c
 *
 * A word is a stored word of the capture. Before a row is timed, both must give what the independent implementation gives. */
#include <stdio.h>
#include <stdlib.h>
#include <string.h>

#include "fast.h"
#include "table.h"
#include "traffic.h"

static traffic t;
static uint8_t capture[VIN_CAPTURE_MAX], tape[VIN_CAPTURE_MAX], log_out[VIN_LOG_MAX], log_expected[VIN_LOG_MAX];
static uint8_t times_out[VIN_READ_GROUPS_MAX * 8], times_expected[VIN_READ_GROUPS_MAX * 8];
static uint32_t words_in[VIN_WORDS_MAX], words_out[VIN_WORDS_MAX];
static uint64_t report_out[VIN_WORDS_MAX], report_expected[VIN_WORDS_MAX];
static size_t capture_len, words_len, tape_len; /* the tape is what is salvaged */

#define FULL t.words, t.tracks, t.frame_time, t.crc, t.parity, VIN_CRC_LABEL, VIN_FILL_BUS, t.kinds, 16
#define TIMES_OUT times_out, sizeof times_out

/* ==== The functions: a call by the library or by fast C, and whether it gives what is expected ==== */

static vin_answer call_words(enum who who)
{
    return (who == FAST ? fast_read_words : vin_read_words)(FULL, capture, capture_len, words_out, VIN_WORDS_MAX, TIMES_OUT);
}

static int words_agree(enum who who)
{
    vin_answer a;
    memset(words_out, 0xFF, sizeof words_out);
    a = call_words(who);
    return a.number == 0 && a.bytes == words_len && memcmp(words_out, words_in, 4 * words_len) == 0 && a.times == t.times_len / 8
           && memcmp(times_out, t.times, t.times_len) == 0;
}

static vin_answer call_items(enum who who)
{
    return (who == FAST ? fast_read_items : vin_read_items)(FULL, words_in, words_len, log_out, sizeof log_out);
}

static int items_agree(enum who who)
{
    vin_answer a = call_items(who);
    return a.number == 0 && a.bytes == t.log_len && memcmp(log_out, t.log, t.log_len) == 0;
}

/* Times and entries stand in the answer as one. */
static vin_answer call_salvage(enum who who)
{
    vin_salvaged a = (who == FAST ? fast_salvage : vin_salvage)(FULL, tape, tape_len, log_out, sizeof log_out, TIMES_OUT, report_out,
                                                                VIN_WORDS_MAX);
    return (vin_answer){a.number, a.place, a.second, a.bytes, a.times << 32 | a.entries};
}

static int salvage_agrees(enum who who)
{
    ind_salvaged e = ind_salvage(FULL, tape, tape_len, log_expected, sizeof log_expected, times_expected, sizeof times_expected,
                                 report_expected, VIN_WORDS_MAX);
    vin_answer a;
    memset(report_out, 0xFF, sizeof report_out);
    a = call_salvage(who);
    return e.number == 0 && a.number == 0 && a.bytes == e.bytes && a.times == (e.times << 32 | e.entries)
           && memcmp(log_out, log_expected, e.bytes) == 0 && memcmp(times_out, times_expected, 8 * e.times) == 0
           && memcmp(report_out, report_expected, 8 * e.entries) == 0;
}

/* The plain reading, to which a stream is compared. */
static vin_answer call_read(enum who who)
{
    return (who == FAST ? fast_read_full : vin_read_full)(FULL, capture, capture_len, log_out, sizeof log_out, TIMES_OUT);
}

/* The whole capture in pieces of so many bytes, opened and closed; log and times stand one behind the other. */
static vin_answer call_pieces(enum who who, size_t size)
{
    static uint8_t state[VIN_STATE_BYTES], piece_log[VIN_STREAM_LOG_ROOM];
    vin_answer a = (who == FAST ? fast_stream_open : vin_stream_open)(FULL, state, sizeof state), all = {0, 0, 0, 0, 0};
    for (size_t at = 0; at < capture_len && a.number == 0; at += size) {
        size_t length = capture_len - at < size ? capture_len - at : size;
        a = (who == FAST ? fast_stream_feed : vin_stream_feed)(state, sizeof state, capture + at, length, piece_log, sizeof piece_log,
                                                               times_out + 8 * all.times, sizeof times_out - 8 * all.times);
        memcpy(log_out + all.bytes, piece_log, a.bytes);
        all.bytes += a.bytes;
        all.times += a.times;
    }
    if (a.number == 0)
        a = (who == FAST ? fast_stream_close : vin_stream_close)(state, sizeof state, piece_log, sizeof piece_log);
    memcpy(log_out + all.bytes, piece_log, a.bytes);
    all.bytes += a.bytes;
    all.number = a.number;
    return all;
}

static vin_answer call_stream(enum who who)
{
    return call_pieces(who, VIN_PIECE_MAX);
}

static vin_answer call_stream_64(enum who who)
{
    return call_pieces(who, 64);
}

/* What was composed comes back. */
static int reads_back(vin_answer a)
{
    return a.number == 0 && a.bytes == t.log_len && memcmp(log_out, t.log, t.log_len) == 0 && a.times == t.times_len / 8
           && memcmp(times_out, t.times, t.times_len) == 0;
}

static int read_agrees(enum who who)
{
    return reads_back(call_read(who));
}

static int stream_agrees(enum who who)
{
    return reads_back(call_stream(who));
}

static int stream_64_agrees(enum who who)
{
    return reads_back(call_stream_64(who));
}

enum { WORDS, ITEMS, SALVAGE, READ, STREAM, STREAM_64, FUNCTIONS };
static const column columns[FUNCTIONS] = {{"read_words", call_words}, {"read_items", call_items},     {"salvage", call_salvage},
                                          {"read", call_read},        {"stream_4096", call_stream}, {"stream_64", call_stream_64}};
static int (*const agrees[FUNCTIONS])(enum who) = {words_agree, items_agree, salvage_agrees, read_agrees, stream_agrees, stream_64_agrees};

/* ==== The rows ==== */

/* Damage to a group of the tape: a bit of its first sync word, so that it is dropped; or of the first word of data, without parity and CRC a
 * word that is dropped or another item, with them a group that is. */
static void damage(uint8_t *group, int sync)
{
    size_t data = 3 * (size_t)(t.frame_time ? 4 : 1);
    group[sync ? 2 : data] ^= 0x10;
}

/* The capture as a damaged tape: of each eight groups one without its sync word, and one with a bit wrong in a data word. */
static void make_tape(void)
{
    size_t group = VIN_GROUP_BYTES(t.words, t.tracks);
    memcpy(tape, capture, capture_len);
    tape_len = capture_len;
    for (size_t n = 0; n < tape_len / group; n++)
        if (n % 8 == 0 || n % 8 == 3)
            damage(tape + n * group, n % 8 == 3);
}

/* The capture's groups over 1,048,576 bytes of tape, fill between, damaged in the same way. */
static void make_long_tape(void)
{
    size_t group = VIN_GROUP_BYTES(t.words, t.tracks), groups = capture_len / group, all = sizeof tape / group, next = 0;
    tape_len = 0;
    for (size_t n = 0; n < all; n++) {
        if (next < groups && n * groups >= next * all)
            memcpy(tape + tape_len, capture + group * next++, group);
        else
            traffic_fill(&t, tape + tape_len);
        if (n % 8 == 0 || n % 8 == 3)
            damage(tape + tape_len, n % 8 == 3);
        tape_len += group;
    }
}

/* The row's capture and its words, by the independent implementation; and the tape. */
static void make_row(void)
{
    ind_answer a = ind_compose_full(FULL, t.log, t.log_len, t.times, t.times_len, capture, sizeof capture);
    capture_len = a.bytes;
    words_len = ind_read_words(FULL, capture, capture_len, words_in, VIN_WORDS_MAX, times_expected, sizeof times_expected).bytes;
    if (a.number != 0 || ind_read_items(FULL, words_in, words_len, log_expected, sizeof log_expected).number != 0) {
        printf("%s: the row itself is refused\n", t.name);
        exit(1);
    }
    make_tape();
}

static void figure(int f, size_t bytes)
{
    for (enum who who = LIBRARY; who <= FAST; who++)
        must_agree(agrees[f](who), t.name, who, columns[f].name);
    line_figure(f, (double)bytes / 3);
}

int main(int argc, char **argv)
{
    table_begin(argc, argv, "a word", "words", "traffic, plan, size", columns, FUNCTIONS);
    for (int n = 0; traffic_row(&t, n, 0); n++) {
        if (!is_wanted(t.name))
            continue;
        make_row();
        line_begin(t.name, capture_len / 3);
        for (int f = 0; f < FUNCTIONS; f++)
            figure(f, capture_len);
        line_end();
        if (!t.then_largest)
            continue;
        make_long_tape();
        line_begin("  the same over a damaged tape of 1,048,576 bytes", tape_len / 3);
        line_blank();
        line_blank();
        figure(SALVAGE, tape_len);
        line_blank();
        line_blank();
        line_blank();
        line_end();
    }
    table_end();
    return 0;
}
