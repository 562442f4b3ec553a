/* A libFuzzer target: the library (include/vinculampe.h) against the independent implementation, on whatever bytes the fuzzer makes.
 *
 * The input: 10 bytes that make a plan and say what is done with the rest, then the rest.
 *   byte 0       0 composes the rest as a log; 1 reads the rest as a capture; 2 reads the rest as data words, dealt into groups with
 *                sync, frame time, parity and CRC made right; 3 as 2, then the last byte of the rest changed something; 4 works on the
 *                rest as logs: bytes 1 to 8 are a set of buses (1, 2) and a shift (all eight), byte 9 is where a second log begins
 *   bytes 1, 2   the words of a frame; byte 3 tracks, frame time, CRC, parity; bytes 4 to 7 the kinds, two bits a bus. With the last
 *                bit of byte 3 the whole plan: bytes 8 and 9 are also the CRC word's label and the fill bus code
 *   byte 8       how much more or less room than needed; 192 and more: a group of fill behind
 *   byte 9       how many more bytes of times than needed, or the change of 3 */
#include <stdlib.h>
#include <string.h>

#include "../../include/vinculampe.h"
#include "../../independent/rules.h"
#include "deal.h"

#define CAPTURE_ROOM 400000

static uint8_t run_a[CAPTURE_ROOM], made[CAPTURE_ROOM], made_too[CAPTURE_ROOM], times[CAPTURE_ROOM], times_made[CAPTURE_ROOM],
    times_made_too[CAPTURE_ROOM];

typedef struct {
    uint32_t words, tracks, frame_time, crc, parity, full, crc_label, fill_bus;
    uint8_t kinds[16];
} numbers;

#define PLAN n->words, n->tracks, n->frame_time, n->crc, n->parity, n->kinds, 16
#define FULL n->words, n->tracks, n->frame_time, n->crc, n->parity, n->crc_label, n->fill_bus, n->kinds, 16

static void must_be_same(vin_answer a, ind_answer b)
{
    if (a.number != b.number || a.place != b.place || a.second != b.second || a.bytes != b.bytes || a.times != b.times)
        abort();
    if (memcmp(made, made_too, sizeof made) != 0 || memcmp(times_made, times_made_too, sizeof times_made) != 0)
        abort();
}

static vin_answer compose(const numbers *n, const uint8_t *log, size_t log_len, size_t times_len, size_t room)
{
    vin_answer a = n->full ? vin_compose_full(FULL, log, log_len, times, times_len, made, room)
                           : vin_compose(PLAN, log, log_len, times, times_len, made, room);
    must_be_same(a, ind_compose_full(FULL, log, log_len, times, times_len, made_too, room));
    return a;
}

static vin_answer read_both(const numbers *n, const uint8_t *capture, size_t length, size_t log_room, size_t times_room)
{
    vin_answer a = n->full ? vin_read_full(FULL, capture, length, made, log_room, times_made, times_room)
                           : vin_read(PLAN, capture, length, made, log_room, times_made, times_room), c;
    must_be_same(a, ind_read_full(FULL, capture, length, made_too, log_room, times_made_too, times_room));
    c = n->full ? vin_read_closed_full(FULL, capture, length, made, log_room, times_made, times_room)
                : vin_read_closed(PLAN, capture, length, made, log_room, times_made, times_room);
    must_be_same(c, ind_read_closed_full(FULL, capture, length, made_too, log_room, times_made_too, times_room));
    if (c.number == 0 && (a.number != 0 || a.bytes != c.bytes || a.times != c.times)) /* where closed accepts, plain does */
        abort();
    return c;
}

/* Salvage with these rooms, as the independent one. */
static vin_salvaged salvage_both(const numbers *n, const uint8_t *capture, size_t length, size_t log_room, size_t times_room, size_t entries)
{
    static uint64_t report[CAPTURE_ROOM / 3], report_too[CAPTURE_ROOM / 3];
    vin_salvaged a = vin_salvage(FULL, capture, length, made, log_room, times_made, times_room, report, entries);
    ind_salvaged b = ind_salvage(FULL, capture, length, made_too, log_room, times_made_too, times_room, report_too, entries);
    vin_answer same = {a.number, a.place, a.second, a.bytes, a.times};
    must_be_same(same, (ind_answer){b.number, b.place, b.second, b.bytes, b.times});
    if (a.entries != b.entries || memcmp(report, report_too, sizeof report) != 0)
        abort();
    return a;
}

static void salvaging(const numbers *n, const uint8_t *capture, size_t length, uint8_t less)
{
    vin_salvaged a = salvage_both(n, capture, length, VIN_LOG_MAX, 8 * VIN_READ_GROUPS_MAX, CAPTURE_ROOM / 3);
    if (a.number == 0)
        salvage_both(n, capture, length, a.bytes - (less & 1), 8 * a.times - (a.times > 0 && (less & 2)),
                     a.entries - (a.entries > 0 && (less & 4)));
}

/* A stream's state, and what a call of it may write. */
typedef struct {
    uint8_t state[VIN_STATE_BYTES], log[VIN_STREAM_LOG_ROOM], row[8 * VIN_STREAM_TIMES_MAX];
} streamed;

static streamed ours, theirs;

static void must_stream_alike(vin_answer a, ind_answer b)
{
    if (a.number != b.number || a.place != b.place || a.second != b.second || a.bytes != b.bytes || a.times != b.times
        || memcmp(&ours, &theirs, sizeof ours) != 0)
        abort();
}

/* The capture as it arrives, in pieces of so many bytes; where `twist` is not 0, a byte of the state is changed before some of them. */
static void streaming(const numbers *n, const uint8_t *capture, size_t length, size_t size, uint8_t twist)
{
    must_stream_alike(vin_stream_open(FULL, ours.state, VIN_STATE_BYTES), ind_stream_open(FULL, theirs.state, VIN_STATE_BYTES));
    for (size_t at = 0, call = 0; at <= length && call < 100; at += size, call++) {
        size_t piece = length - at < size ? length - at : size;
        if (twist != 0 && call % 4 == 3)
            ours.state[(call * 131 + twist * 37u) % 1100] ^= twist, theirs = ours;
        must_stream_alike(vin_stream_feed(ours.state, VIN_STATE_BYTES, capture + at, piece, ours.log, sizeof ours.log, ours.row, sizeof ours.row),
                          ind_stream_feed(theirs.state, VIN_STATE_BYTES, capture + at, piece, theirs.log, sizeof theirs.log, theirs.row,
                                          sizeof theirs.row));
    }
    must_stream_alike(vin_stream_close(ours.state, VIN_STATE_BYTES, ours.log, sizeof ours.log),
                      ind_stream_close(theirs.state, VIN_STATE_BYTES, theirs.log, sizeof theirs.log));
}

/* What the closed reading accepts composes to those very bytes. */
static void closed_means_composed(const numbers *n, const uint8_t *capture, size_t length, vin_answer c)
{
    static uint8_t log[VIN_LOG_MAX];
    memcpy(log, made, c.bytes);
    memcpy(times, times_made, 8 * c.times);
    c = compose(n, log, c.bytes, 8 * c.times, sizeof made);
    if (c.number != 0 || c.bytes != length || memcmp(made, capture, length) != 0)
        abort();
}

static void composing(const numbers *n, const uint8_t *rest, size_t size, int8_t less, int8_t odd_times)
{
    size_t times_len;
    vin_answer a = compose(n, rest, size, 0, 0);
    if (a.number == VIN_TIMES || a.number == VIN_ROOM) {
        times_len = a.number == VIN_TIMES ? 8 * a.place : 0;
        for (size_t k = 0; k < times_len + 128; k++)
            times[k] = k % 8 < 3 ? 0 : (uint8_t)(k * 37);
        a = compose(n, rest, size, times_len, 0);
        compose(n, rest, size, times_len + (size_t)(odd_times > 0 ? odd_times : 0), a.place + (size_t)(less > 0 ? less : 0));
        if (a.place > 0)
            compose(n, rest, size, times_len, a.place - 1);
        a = compose(n, rest, size, times_len, a.place);
        memcpy(run_a, made, a.bytes);
        a = read_both(n, run_a, a.bytes, VIN_LOG_MAX, times_len);
        if (a.number != 0 || a.bytes != size || memcmp(made, rest, size) != 0) /* what was composed reads back */
            abort();
    }
}

/* The functions on logs: pick and shift of the whole, join of two parts; each with room enough, and with one byte less than is needed. */
static void on_logs(const uint8_t *rest, size_t size, const uint8_t *by)
{
    uint16_t buses = (uint16_t)(by[0] << 8 | by[1]);
    size_t cut = by[8] < size ? by[8] : size;
    int64_t shift = (int64_t)time_from_bytes(by);
    for (size_t room = sizeof made, again = 0; again < 2; again++) {
        vin_answer a = vin_pick(rest, size, buses, made, room);
        must_be_same(a, ind_pick(rest, size, buses, made_too, room));
        room = a.bytes > 0 ? (size_t)a.bytes - 1 : 0;
    }
    for (size_t room = sizeof made, again = 0; again < 2; again++) {
        vin_answer a = vin_join(rest, cut, rest + cut, size - cut, made, room);
        must_be_same(a, ind_join(rest, cut, rest + cut, size - cut, made_too, room));
        room = a.bytes > 0 ? (size_t)a.bytes - 1 : 0;
    }
    memset(times_made, 0, 19);
    memcpy(times_made + 3, rest, size < 16 ? size : 16); /* two entries and spare bytes */
    memcpy(times_made_too, times_made, 19);
    for (size_t room = sizeof made, again = 0; again < 2; again++) {
        vin_answer a = vin_shift(rest, size, by[8] % 2 ? shift : shift >> 18, times_made, 19, made, room);
        must_be_same(a, ind_shift(rest, size, by[8] % 2 ? shift : shift >> 18, times_made_too, 19, made_too, room));
        room = a.bytes > 0 ? (size_t)a.bytes - 1 : 0;
    }
}

int LLVMFuzzerTestOneInput(const uint8_t *data, size_t size)
{
    numbers numbers_of_plan = {0}, *n = &numbers_of_plan;
    const uint8_t *rest = data + 10;
    size_t length;
    plan p;
    vin_answer c;
    if (size < 10)
        return 0;
    size -= 10;
    if (data[0] == 4) {
        on_logs(rest, size, data + 1);
        return 0;
    }
    n->words = ((uint32_t)data[1] << 8 | data[2]) % 640;
    n->tracks = 1 + (data[3] >> 6);
    n->frame_time = data[3] >> 1 & 1;
    n->crc = data[3] >> 2 & 1;
    n->parity = data[3] >> 3 & 1;
    n->full = data[3] & 1;
    n->crc_label = n->full ? data[8] % 9 : VIN_CRC_LABEL;
    n->fill_bus = n->full ? data[9] % 18 : VIN_FILL_BUS;
    for (int bus = 0; bus < 16; bus++)
        n->kinds[bus] = data[4 + bus / 4] >> (6 - 2 * (bus % 4)) & 3;
    if (data[0] % 4 == 0) {
        composing(n, rest, size, (int8_t)data[8], (int8_t)data[9]);
        return 0;
    }
    if (size > CAPTURE_ROOM)
        return 0;
    memcpy(run_a, rest, size);
    length = size;
    if (data[0] % 4 > 1 && plan_of(&p, FULL)) {
        length = deal(n->words, n->tracks, n->frame_time, n->crc, n->parity, n->crc_label, n->fill_bus, n->kinds, rest, size,
                      data[8] >= 192, run_a, CAPTURE_ROOM);
        if (data[0] % 4 == 3 && length > 0 && size > 0)
            run_a[rest[size - 1] * (length - 1) / 255] ^= data[9] | 1;
    }
    salvaging(n, run_a, length, data[8]);
    streaming(n, run_a, length, data[9] % 8 == 0 ? 1 + data[8] : data[9] % 2 == 0 ? VIN_PIECE_MAX : 64 + 16 * (size_t)data[8], data[9] % 3 == 0 ? data[8] : 0);
    c = read_both(n, run_a, length, VIN_LOG_MAX, 8 * VIN_READ_GROUPS_MAX);
    if (c.number == 0) {
        closed_means_composed(n, run_a, length, c);
        read_both(n, run_a, length, c.bytes - 1 + data[8] % 3, c.times * 8 + data[9] % 17 - (c.times > 0 ? 8 : 0));
    }
    return 0;
}
