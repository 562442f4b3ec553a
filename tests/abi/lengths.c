/* K1: "128 and 512 are legal, 127 and 513 are refused by 1", in every function that takes a plan, for 1 to 4 tracks and every choice.
 *
 * A legal plan carries a sortie of more than one group: what composing makes of it is the independent implementation's capture, and the
 * other functions give the log and the times that were composed. An illegal one is refused at place 0, and nothing is written. */
#include <stdio.h>
#include <stdlib.h>
#include <string.h>

#include "../../include/vinculampe.h"
#include "../../independent/independent.h"
#include "lent.h"

static const struct {
    uint32_t words;
    bool legal;
} lengths[] = {{127, false}, {128, true}, {512, true}, {513, false}};

enum { CAPTURE_MOST = 2 * VIN_GROUP_BYTES(513, 4), ROW_MOST = 2 * VIN_GROUP_SLOTS(513, 4, 0, 0), REPORT_ROOM = 4 };

static struct {
    vin_plan plan;
    bool legal;
    uint8_t log[VIN_LOG_MAX], times[2 * VIN_TIME_BYTES], capture[CAPTURE_MOST];
    uint32_t row[ROW_MOST]; /* the words of its data slots, as they are dealt */
    size_t bits, log_len, times_len, capture_len, row_len;
} sortie;

static const char *called;

static void hold(bool claim, const char *text)
{
    const vin_plan *p = &sortie.plan;
    if (claim)
        return;
    printf("FAILED: lengths: vin_%s: words %u, tracks %u, frame time %u, CRC %u, parity %u: %s\n", called, (unsigned)p->words,
           (unsigned)p->tracks, (unsigned)p->frame_time, (unsigned)p->crc, (unsigned)p->parity, text);
    exit(1);
}
#define HOLD(claim) hold(claim, #claim)

#define NUMBERS sortie.plan.words, sortie.plan.tracks, sortie.plan.frame_time, sortie.plan.crc, sortie.plan.parity
#define KINDS sortie.plan.kinds, sizeof sortie.plan.kinds
#define WHOLE_PLAN NUMBERS, sortie.plan.crc_label, sortie.plan.fill_bus, KINDS

/* ==== The sortie ==== */

static void put(uint64_t value, int bits)
{
    for (; bits-- > 0; sortie.bits++)
        sortie.log[sortie.bits / 8] |= (uint8_t)((value >> bits & 1) << (7 - sortie.bits % 8));
}

/* Data words on bus 2 up to the group's last slot, and from there into the next group a command with its time tag. */
static void make_log(void)
{
    size_t slots = sortie.row_len / 2;
    sortie.bits = 0;
    memset(sortie.log, 0, sizeof sortie.log);
    for (size_t n = 1; n < slots; n++)
        put(0x640000 | n, 25);
    put(0x124210C0, 32);
    put(0x0000004005, 40);
    sortie.log_len = (sortie.bits + 4 + 7) / 8;
}

static void make(uint32_t words, uint32_t tracks, uint32_t choices, bool legal)
{
    vin_plan plan = VIN_PLAN_INIT(words, tracks);
    plan.frame_time = choices & 1;
    plan.crc = choices >> 1 & 1;
    plan.parity = choices >> 2;
    plan.kinds[2] = VIN_KIND_1553;
    sortie.plan = plan;
    sortie.legal = legal;
    sortie.times_len = plan.frame_time ? sizeof sortie.times : 0;
    sortie.times[7] = 5;
    sortie.times[15] = 6;
    sortie.capture_len = 2 * VIN_GROUP_BYTES(words, tracks);
    sortie.row_len = 2 * VIN_GROUP_SLOTS(words, tracks, plan.frame_time, plan.crc);
    make_log();
    if (legal) {
        called = "compose_full, the independent one";
        HOLD(ind_compose_full(WHOLE_PLAN, sortie.log, sortie.log_len, sortie.times, sortie.times_len, sortie.capture, CAPTURE_MOST).bytes
             == sortie.capture_len);
        called = "read_words, the independent one";
        HOLD(ind_read_words(WHOLE_PLAN, sortie.capture, sortie.capture_len, sortie.row, ROW_MOST, sortie.times, sortie.times_len).bytes
             == sortie.row_len);
    }
}

/* ==== What is answered and written ==== */

static lent capture, log_room, times, row, report, state;

#define LENT(room, bytes) lend(&(room), bytes, true), bytes
#define ROW_LENT(type, room, entries) (type *)(void *)lend(&(room), (entries) * sizeof(type), true), entries

static void answered(vin_answer a, uint64_t bytes, uint64_t entries)
{
    HOLD(a.number == (sortie.legal ? VIN_DONE : VIN_PLAN));
    HOLD(a.place == 0 && a.second == 0);
    HOLD(a.bytes == (sortie.legal ? bytes : 0));
    HOLD(a.times == (sortie.legal ? entries : 0));
}

static void written(const lent *room, const void *made, size_t bytes)
{
    if (!sortie.legal)
        bytes = 0;
    HOLD(memcmp(room->at, made, bytes) == 0);
    HOLD(lent_untouched(room, bytes));
}

static void composed(vin_answer a)
{
    answered(a, sortie.capture_len, 0);
    written(&capture, sortie.capture, sortie.capture_len);
}

static void read_back(vin_answer a)
{
    answered(a, sortie.log_len, sortie.times_len / VIN_TIME_BYTES);
    written(&log_room, sortie.log, sortie.log_len);
    written(&times, sortie.times, sortie.times_len);
}

/* ==== The functions ==== */

#define COMPOSED sortie.log, sortie.log_len, sortie.times, sortie.times_len, LENT(capture, sortie.capture_len)
#define READ sortie.capture, sortie.capture_len, LENT(log_room, sortie.log_len), LENT(times, sortie.times_len)

static void of_compose(void) { composed(vin_compose(NUMBERS, KINDS, COMPOSED)); }
static void of_compose_full(void) { composed(vin_compose_full(WHOLE_PLAN, COMPOSED)); }
static void of_read(void) { read_back(vin_read(NUMBERS, KINDS, READ)); }
static void of_read_full(void) { read_back(vin_read_full(WHOLE_PLAN, READ)); }
static void of_read_closed(void) { read_back(vin_read_closed(NUMBERS, KINDS, READ)); }
static void of_read_closed_full(void) { read_back(vin_read_closed_full(WHOLE_PLAN, READ)); }

static void of_read_words(void)
{
    answered(vin_read_words(WHOLE_PLAN, sortie.capture, sortie.capture_len, ROW_LENT(uint32_t, row, sortie.row_len),
                            LENT(times, sortie.times_len)),
             sortie.row_len, sortie.times_len / VIN_TIME_BYTES);
    written(&row, sortie.row, sortie.row_len * sizeof *sortie.row);
    written(&times, sortie.times, sortie.times_len);
}

static void of_read_items(void)
{
    answered(vin_read_items(WHOLE_PLAN, sortie.row, sortie.row_len, LENT(log_room, sortie.log_len)), sortie.log_len, 0);
    written(&log_room, sortie.log, sortie.log_len);
}

static vin_answer log_and_times(vin_salvaged a)
{
    return (vin_answer){.number = a.number, .place = a.place, .second = a.second, .bytes = a.bytes, .times = a.times};
}

/* The sortie as it is, and with its second group dropped: the command is then lost, too. */
static void of_salvage(void)
{
    static uint8_t left[VIN_LOG_MAX], kept[VIN_TIME_BYTES];
    static uint64_t lost[REPORT_ROOM];
    uint8_t *sync = sortie.capture + sortie.capture_len / 2;
    vin_salvaged a = vin_salvage(WHOLE_PLAN, READ, ROW_LENT(uint64_t, report, REPORT_ROOM));
    read_back(log_and_times(a));
    HOLD(a.entries == 0 && lent_untouched(&report, 0));
    *sync ^= 1;
    a = vin_salvage(WHOLE_PLAN, READ, ROW_LENT(uint64_t, report, REPORT_ROOM));
    ind_salvaged b = ind_salvage(WHOLE_PLAN, sortie.capture, sortie.capture_len, left, sizeof left, kept, sizeof kept, lost, REPORT_ROOM);
    *sync ^= 1;
    answered(log_and_times(a), b.bytes, b.times);
    HOLD(a.entries == (sortie.legal ? 2 : 0) && b.entries == a.entries);
    written(&log_room, left, b.bytes);
    written(&times, kept, b.times * VIN_TIME_BYTES);
    written(&report, lost, b.entries * sizeof *lost);
}

/* Opened, fed and closed; a state that was opened by an illegal plan is closed, and takes nothing. */
static void of_stream_open(void)
{
    static const uint8_t closed[VIN_STATE_BYTES];
    size_t bytes = 0, entries = 0, piece;
    answered(vin_stream_open(WHOLE_PLAN, LENT(state, VIN_STATE_BYTES)), 0, 0);
    HOLD((memcmp(state.at, closed, VIN_STATE_BYTES) == 0) == !sortie.legal);
    for (size_t at = 0; at < sortie.capture_len; at += piece) {
        piece = sortie.capture_len - at < VIN_PIECE_MAX ? sortie.capture_len - at : VIN_PIECE_MAX;
        vin_answer a = vin_stream_feed(state.at, state.length, sortie.capture + at, piece, LENT(log_room, VIN_STREAM_LOG_ROOM),
                                       LENT(times, sizeof sortie.times));
        HOLD(a.number == (sortie.legal ? VIN_DONE : VIN_STREAM) && a.place == 0 && a.second == 0);
        HOLD(bytes + a.bytes <= sortie.log_len && entries + a.times <= sortie.times_len / VIN_TIME_BYTES);
        written(&log_room, sortie.log + bytes, a.bytes);
        written(&times, sortie.times + entries * VIN_TIME_BYTES, a.times * VIN_TIME_BYTES);
        bytes += a.bytes;
        entries += a.times;
    }
    vin_answer a = vin_stream_close(state.at, state.length, LENT(log_room, VIN_STREAM_LOG_ROOM));
    HOLD(a.number == (sortie.legal ? VIN_DONE : VIN_STREAM) && a.place == 0 && a.second == 0 && a.times == 0);
    HOLD(bytes + a.bytes == (sortie.legal ? sortie.log_len : 0) && entries == (sortie.legal ? sortie.times_len / VIN_TIME_BYTES : 0));
    written(&log_room, sortie.log + bytes, a.bytes);
    HOLD(memcmp(state.at, closed, VIN_STATE_BYTES) == 0 && lent_untouched(&state, VIN_STATE_BYTES));
}

#define CALL(name) {#name, of_##name}
static const struct {
    const char *name;
    void (*of)(void);
} calls[] = {CALL(compose), CALL(compose_full), CALL(read), CALL(read_full), CALL(read_closed), CALL(read_closed_full), CALL(read_words),
             CALL(read_items), CALL(salvage), CALL(stream_open)};

int main(void)
{
    size_t tried = 0;
    lent_new(&capture, CAPTURE_MOST);
    lent_new(&log_room, VIN_STREAM_LOG_ROOM);
    lent_new(&times, sizeof sortie.times);
    lent_new(&row, sizeof sortie.row);
    lent_new(&report, REPORT_ROOM * sizeof(uint64_t));
    lent_new(&state, VIN_STATE_BYTES);
    for (size_t n = 0; n < sizeof lengths / sizeof *lengths; n++)
        for (uint32_t tracks = 1; tracks <= 4; tracks++)
            for (uint32_t choices = 0; choices < 8; choices++) {
                make(lengths[n].words, tracks, choices, lengths[n].legal);
                for (size_t c = 0; c < sizeof calls / sizeof *calls; c++, tried++) {
                    called = calls[c].name;
                    calls[c].of();
                }
            }
    printf("lengths: %zu calls of %zu functions at 127, 128, 512 and 513 words: 128 and 512 are legal\n", tried, sizeof calls / sizeof *calls);
    return 0;
}
