/* Document 02, K4, over the independent implementation: a capture as it arrives, by hand. */
#include <string.h>

#include "selftest_capture.h"

enum { LOG_ROOM = 12288, TIMES_ROOM = 8 * 16, PIECE_MOST = 4096 };

static uint8_t state[IND_STATE_BYTES], log_out[LOG_ROOM], times_out[TIMES_ROOM];

static ind_answer open_state(void)
{
    memset(state, 0xA5, sizeof state);
    return ind_stream_open(L, tracks, frame_time, crc, parity, 3, 0, kinds, 16, state, sizeof state);
}

static ind_answer feed(const uint8_t *piece, size_t length)
{
    memset(log_out, 0xA5, sizeof log_out);
    memset(times_out, 0xA5, sizeof times_out);
    return ind_stream_feed(state, sizeof state, piece, length, log_out, sizeof log_out, times_out, sizeof times_out);
}

static ind_answer close_state(void)
{
    memset(log_out, 0xA5, sizeof log_out);
    return ind_stream_close(state, sizeof state, log_out, sizeof log_out);
}

static bool all_are(const uint8_t *bytes, size_t from, size_t to, uint8_t value)
{
    for (; from < to; from++)
        if (bytes[from] != value)
            return false;
    return true;
}

static bool is(ind_answer a, uint32_t number, uint64_t place, uint64_t second, uint64_t bytes, uint64_t times)
{
    return a.number == number && a.place == place && a.second == second && a.bytes == bytes && a.times == times;
}

static bool closed(void)
{
    return all_are(state, 0, sizeof state, 0);
}

/* ---- What a capture hands out ---- */

static struct {
    uint8_t log[20000], times[TIMES_ROOM];
    size_t log_len, time_count;
    ind_answer end;
} handed;

static void hand_out(ind_answer a)
{
    CHECK(all_are(log_out, (size_t)a.bytes, sizeof log_out, 0xA5)); /* nothing behind what is answered */
    memcpy(handed.log + handed.log_len, log_out, (size_t)a.bytes);
    handed.log_len += (size_t)a.bytes;
}

/* The capture in pieces of so many bytes, an empty one before each; `first` bytes before all of them. */
static void stream_in(size_t bytes, size_t first, size_t size)
{
    ind_answer fault = {0}, a;
    memset(&handed, 0, sizeof handed);
    CHECK(is(open_state(), 0, 0, 0, 0, 0));
    for (size_t at = 0, length = first; at < bytes; at += length, length = size) {
        if (length > bytes - at)
            length = bytes - at;
        a = feed(NULL, 0);
        CHECK(is(a, fault.number, fault.place, fault.second, 0, 0));
        a = feed(capture_bytes + at, length);
        /* "the state then repeats the refusal and writes nothing" */
        CHECK(fault.number == 0 || is(a, fault.number, fault.place, fault.second, 0, 0));
        hand_out(a);
        CHECK(all_are(times_out, 8 * (size_t)a.times, sizeof times_out, 0xA5));
        memcpy(handed.times + 8 * handed.time_count, times_out, 8 * (size_t)a.times);
        handed.time_count += (size_t)a.times;
        if (fault.number == 0)
            fault = a;
    }
    handed.end = close_state();
    hand_out(handed.end);
    CHECK(fault.number == 0 || is(handed.end, fault.number, fault.place, fault.second, 0, 0));
    CHECK(closed() && is(close_state(), 16, 0, 0, 0, 0) && is(feed(capture_bytes, 1), 16, 0, 0, 0, 0) && closed());
}

/* "All cuttings of one capture .. hand out the same bytes and times and end alike": these bytes, and this end. */
static bool streams(size_t bytes, const uint8_t *log, size_t log_len, uint64_t times, uint32_t number, uint64_t place, uint64_t second)
{
    static const size_t sizes[] = {1, 2, 3, 7, 64, GROUP - 1, GROUP, GROUP + 1, 2 * GROUP, PIECE_MOST};
    for (size_t n = 0; n < sizeof sizes / sizeof *sizes; n++)
        for (size_t first = 1; first <= 3; first++) {
            stream_in(bytes, first, sizes[n]);
            if (handed.log_len != log_len || (log_len > 0 && memcmp(handed.log, log, log_len) != 0))
                return false;
            if (handed.time_count != times || handed.end.number != number || handed.end.place != place || handed.end.second != second)
                return false;
        }
    return true;
}

#define BYTES(...) (uint8_t[]){__VA_ARGS__}, sizeof(uint8_t[]){__VA_ARGS__}
#define NONE NULL, 0

/* "plain reading's log and times where it accepts" */
static bool as_plain(size_t bytes)
{
    static uint8_t log[LOG_MAX], times[TIMES_ROOM];
    ind_answer a = ind_read_full(L, tracks, frame_time, crc, parity, 3, 0, kinds, 16, capture_bytes, bytes, log, sizeof log, times,
                                 sizeof times);
    return a.number == 0 && streams(bytes, log, (size_t)a.bytes, a.times, 0, 0, 0) && memcmp(times, handed.times, 8 * (size_t)a.times) == 0;
}

#define CAPTURE(...) capture_words((uint32_t[]){__VA_ARGS__}, sizeof(uint32_t[]){__VA_ARGS__} / sizeof(uint32_t))

#define DATA_7 0x2D0007u
#define DATA_8 0x2D0008u
#define LOW_TIME 0x260002u
#define MICRO 0x250003u
#define STATUS_1 0x2E0001u
#define NOTICE_1 0x54BA00u /* channel 1 of bus 5 */
#define SYLLABLE_1 0x5B0001u
#define USER_5 0x520001u

/* Three groups of one track without anything else: 127 slots each. */
enum { SLOTS = 127 };
static uint32_t slots[3 * SLOTS];

static size_t groups_of(size_t groups)
{
    return capture_words(slots, groups * SLOTS);
}

static void all_fill(void)
{
    for (size_t n = 0; n < 3 * SLOTS; n++)
        slots[n] = FILL_ON_0;
}

/* ---- Captures that plain reading accepts ---- */

static void accepted(void)
{
    plan_is(1, 0, 0, 0);
    CHECK(streams(0, BYTES(0x00), 0, 0, 0, 0)); /* no bytes at all: the close writes 00 */
    CHECK(as_plain(CAPTURE(DATA_7)));
    CHECK(as_plain(CAPTURE(COMMAND_9))); /* complete at the close */
    CHECK(as_plain(CAPTURE(COMMAND_9, HIGH_TIME, LOW_TIME, MICRO, DATA_7)));
    CHECK(as_plain(CAPTURE(SYLLABLE_0, LOW_0)));
    CHECK(as_plain(CAPTURE(NOTICE_0, DATA_7, SYLLABLE_0, LOW_0)));
    /* items over the groups' edges, groups of fill between their words */
    all_fill();
    slots[SLOTS - 1] = SYLLABLE_0, slots[SLOTS] = LOW_0, slots[2 * SLOTS - 1] = 0x570001, slots[2 * SLOTS] = 0x560002;
    slots[3 * SLOTS - 1] = 0x550003;
    CHECK(as_plain(groups_of(3)));
    all_fill();
    slots[0] = COMMAND_9, slots[2 * SLOTS + 5] = HIGH_TIME, slots[2 * SLOTS + 6] = LOW_TIME, slots[2 * SLOTS + 7] = MICRO;
    CHECK(as_plain(groups_of(3)));
    slots[0] = NOTICE_0, slots[1] = COMMAND_9, slots[2 * SLOTS + 8] = SYLLABLE_0, slots[2 * SLOTS + 9] = LOW_0;
    CHECK(as_plain(groups_of(3)));
    plan_is(2, 1, 1, 1);
    CHECK(as_plain(CAPTURE(COMMAND_9, HIGH_TIME, LOW_TIME | 0x800000, MICRO, DATA_1)));
    plan_is(1, 1, 1, 1);
    CHECK(as_plain(CAPTURE(DATA_1, COMMAND_9)));
    plan_is(1, 1, 0, 0);
    all_fill();
    slots[0] = slots[SLOTS] = DATA_7;
    CHECK(as_plain(groups_of(3)) && handed.time_count == 4); /* 381 words in groups of 124 */
}

/* ---- Faults in a group ---- */

static void group_faults(void)
{
    plan_is(1, 0, 0, 0);
    /* "complete before the refused group": the command at its end is not, though the refused group would show it untagged */
    all_fill();
    slots[0] = DATA_7, slots[1] = DATA_8, slots[2] = COMMAND_9, slots[SLOTS] = DATA_7;
    groups_of(2);
    store(capture_bytes, L, SYNC ^ 1);
    CHECK(streams(2 * GROUP, BYTES(0x32, 0x00, 0x03, 0x99, 0x00, 0x02), 0, 9, L, 0));
    /* nor are the items before its bad word */
    groups_of(2);
    store(capture_bytes, L + 2, 0x320000);
    CHECK(streams(2 * GROUP, BYTES(0x32, 0x00, 0x03, 0x99, 0x00, 0x02), 0, 13, L + 2, L + 2));
    /* a first group has none before it */
    groups_of(1);
    store(capture_bytes, 3, 0x320000);
    CHECK(streams(GROUP, NONE, 0, 13, 3, 3));
    /* the second place is of the first word, groups back (K8) */
    all_fill();
    slots[4] = SYLLABLE_0, slots[2 * SLOTS] = DATA_7;
    CHECK(streams(groups_of(3), NONE, 0, 13, 2 * L + 1, 5));
    slots[5] = LOW_0;
    CHECK(as_plain(groups_of(3)));
    slots[2 * SLOTS] = 0x320000; /* a finished ARINC word is not unfinished */
    CHECK(streams(groups_of(3), NONE, 0, 13, 2 * L + 1, 2 * L + 1));
    /* the times of the groups before it */
    plan_is(1, 1, 0, 0);
    all_fill();
    groups_of(3);
    store(capture_bytes, 2 * L + 3, 0x052710);
    CHECK(streams(3 * GROUP, NONE, 2, 12, 2 * L + 3, 0));
    /* 10 and 11 */
    plan_is(1, 0, 1, 1);
    CAPTURE(DATA_1);
    store(capture_bytes, 9, 0x01AAAB);
    CHECK(streams(GROUP, NONE, 0, 10, 9, 0));
    plan_is(1, 0, 1, 0);
    CAPTURE(DATA_1);
    store(capture_bytes, L - 1, 0x030000 ^ stored(capture_bytes, L - 1));
    CHECK(streams(GROUP, NONE, 0, 11, L - 1, 0));
}

/* ---- 15: "when a second notice or the close shows one open (in a group the first shown, at the close the earliest)" ---- */

static void open_notices(void)
{
    plan_is(1, 0, 0, 0);
    CHECK(streams(CAPTURE(USER_5, NOTICE_0), BYTES(0x75, 0x00, 0x00, 0xB2, 0x80), 0, 15, 2, 0)); /* by the close: of 43 bits, no end mark */
    CHECK(streams(CAPTURE(NOTICE_1, NOTICE_0), BYTES(0x65, 0x40, 0x19, 0x40), 0, 15, 1, 0));
    /* the first shown, where plain reading names the earliest open one */
    CHECK(streams(CAPTURE(NOTICE_0, NOTICE_1, NOTICE_1), NONE, 0, 15, 2, 0));
    CHECK(ind_read(L, 1, 0, 0, 0, kinds, 16, capture_bytes, GROUP, log_out, LOG_ROOM, NULL, 0).place == 1);
    CHECK(streams(CAPTURE(NOTICE_0, NOTICE_1, NOTICE_1, SYLLABLE_0, LOW_0, SYLLABLE_1, 0x5A0001), NONE, 0, 15, 2, 0));
    /* inside a group 13 comes first, whatever was shown before it */
    CHECK(streams(CAPTURE(NOTICE_0, NOTICE_0, 0x320000), NONE, 0, 13, 3, 3));
    /* groups back; and before the 9 of a later group, and the cut item of the close */
    all_fill();
    slots[3] = NOTICE_0, slots[SLOTS + 1] = NOTICE_0, slots[2 * SLOTS] = RESPONSE;
    CHECK(streams(groups_of(3), BYTES(0x65, 0x00), 0, 15, 4, 0));
    groups_of(3);
    store(capture_bytes, 2 * L, 0);
    CHECK(streams(3 * GROUP, BYTES(0x65, 0x00), 0, 15, 4, 0));
    slots[SLOTS + 1] = FILL_ON_0;
    CHECK(streams(groups_of(3), BYTES(0x65, 0x00), 0, 13, 2 * L + 1, 2 * L + 1)); /* at the close 13 comes before 15 */
    CHECK(streams(groups_of(3) - 1, BYTES(0x65, 0x00), 0, 8, 3 * GROUP - 1, 0));  /* and 8 before both */
    /* an ARINC word held at the close has answered */
    slots[2 * SLOTS] = SYLLABLE_0, slots[2 * SLOTS + 1] = LOW_0;
    CHECK(as_plain(groups_of(3)));
    /* "the earliest" is of the dealt order: two tracks, user, notice 0, notice 1 stand at 1, L + 1 and 2 */
    plan_is(2, 0, 0, 0);
    memset(kinds, 0, sizeof kinds);
    kinds[5] = BUS_ARINC;
    CHECK(streams(CAPTURE(USER_5, NOTICE_0, NOTICE_1), BYTES(0x75, 0x00, 0x00, 0xB2, 0x80, 0x0C, 0xA8), 0, 15, L + 1, 0));
    CHECK(streams(CAPTURE(USER_5, NOTICE_0, NOTICE_1, NOTICE_1), NONE, 0, 15, 2, 0));
}

/* ---- The close ---- */

static void ends(void)
{
    size_t bytes;
    plan_is(1, 0, 0, 0);
    bytes = CAPTURE(DATA_7, RESPONSE);
    CHECK(streams(bytes, BYTES(0x32, 0x00, 0x03), 0, 13, 2, 2)); /* an item that is cut: both places are its first word */
    CHECK(streams(bytes - 1, NONE, 0, 8, bytes - 1, 0));
    CHECK(streams(1, NONE, 0, 8, 1, 0));
    /* at most seven bytes: seven bits, an ARINC word of 43 bits, the end mark */
    CAPTURE(DATA_7, DATA_7, DATA_7, DATA_7, DATA_7, DATA_7, DATA_7, SYLLABLE_0, LOW_0);
    open_state();
    CHECK(is(feed(capture_bytes, GROUP), 0, 0, 0, 21, 0));
    CHECK(is(close_state(), 0, 0, 0, 7, 0));
}

/* ---- 16, and what it leaves ---- */

static bool same_state(const uint8_t *before)
{
    return memcmp(state, before, sizeof state) == 0;
}

static void refused_first(void)
{
    static uint8_t before[IND_STATE_BYTES], longer[IND_STATE_BYTES + 1];
    size_t bytes;
    plan_is(1, 1, 0, 0);
    bytes = CAPTURE(DATA_7);
    CHECK(bytes == GROUP);
    open_state();
    memcpy(before, state, sizeof state);
    CHECK(is(feed(capture_bytes, PIECE_MOST + 1), 16, 0, 0, 0, 0) && same_state(before));
    CHECK(is(ind_stream_feed(state, sizeof state, NULL, 0, log_out, LOG_ROOM - 1, NULL, 0), 16, 0, 0, 0, 0) && same_state(before));
    CHECK(is(ind_stream_close(state, sizeof state, log_out, LOG_ROOM - 1), 16, 0, 0, 0, 0) && same_state(before));
    /* entries for the groups that the piece fills, counted before a word is looked at; spare bytes count for nothing */
    CHECK(is(ind_stream_feed(state, sizeof state, capture_bytes, GROUP, log_out, LOG_ROOM, times_out, 7), 16, 0, 0, 0, 0));
    CHECK(is(ind_stream_feed(state, sizeof state, capture_bytes, 2 * GROUP, log_out, LOG_ROOM, times_out, 15), 16, 0, 0, 0, 0));
    CHECK(same_state(before));
    CHECK(is(ind_stream_feed(state, sizeof state, capture_bytes, GROUP - 1, log_out, LOG_ROOM, NULL, 0), 0, 0, 0, 0, 0));
    CHECK(is(ind_stream_feed(state, sizeof state, capture_bytes + GROUP - 1, 1, log_out, LOG_ROOM, times_out, 7), 16, 0, 0, 0, 0));
    CHECK(is(ind_stream_feed(state, sizeof state, capture_bytes + GROUP - 1, 1, log_out, LOG_ROOM, times_out, 8), 0, 0, 0, 3, 1));
    /* after a fault none are needed; the other 16s stay, and so does the fault */
    CHECK(is(feed(capture_bytes + 1, GROUP), 9, L, 0, 0, 0));
    CHECK(is(ind_stream_feed(state, sizeof state, capture_bytes, GROUP, log_out, LOG_ROOM, NULL, 0), 9, L, 0, 0, 0));
    CHECK(is(feed(capture_bytes, PIECE_MOST + 1), 16, 0, 0, 0, 0));
    CHECK(is(ind_stream_close(state, sizeof state, log_out, LOG_ROOM - 1), 16, 0, 0, 0, 0));
    CHECK(is(close_state(), 9, L, 0, 0, 0) && closed());
    CHECK(is(close_state(), 16, 0, 0, 0, 0));
    /* a state run of another length, also at the opening, before 1; and a plan that is illegal leaves a closed state */
    memset(longer, 0xA5, sizeof longer);
    CHECK(ind_stream_open(127, 1, 0, 0, 0, 3, 0, kinds, 16, longer, sizeof longer).number == 16);
    CHECK(ind_stream_open(L, 1, 0, 0, 0, 3, 0, kinds, 16, longer, IND_STATE_BYTES - 1).number == 16);
    CHECK(all_are(longer, 0, sizeof longer, 0xA5));
    CHECK(ind_stream_open(127, 1, 0, 0, 0, 3, 0, kinds, 16, state, sizeof state).number == 1 && closed());
    memset(state, 0xA5, sizeof state);
    CHECK(ind_stream_open(L, 1, 0, 0, 0, 3, 0, kinds, 15, state, sizeof state).number == 1 && closed());
    open_state();
    CHECK(ind_stream_feed(state, sizeof state - 1, NULL, 0, log_out, LOG_ROOM, NULL, 0).number == 16);
    CHECK(ind_stream_close(state, sizeof state - 1, log_out, LOG_ROOM).number == 16 && same_state(before));
}

/* ---- States that are written by hand ---- */

static void set_number(uint32_t n, uint64_t number)
{
    time_to_bytes(state + 8 * n, number);
}

/* Whether the state passes: a feeding of no bytes is then answered by its fault, or by nothing. */
static bool passes(void)
{
    uint8_t before[IND_STATE_BYTES];
    ind_answer a;
    memcpy(before, state, sizeof state);
    a = feed(NULL, 0);
    return same_state(before) && a.number != 16;
}

static bool with(uint32_t n, uint64_t number)
{
    uint64_t before = time_from_bytes(state + 8 * n);
    bool passed_then;
    set_number(n, number);
    passed_then = passes();
    set_number(n, before);
    return passed_then;
}

#define SIZE_MOST (UINT64_C(1) << 40)

static void written_test(void)
{
    const uint64_t most = SIZE_MOST / GROUP;
    plan_is(1, 1, 0, 0);
    open_state();
    CHECK(passes());
    set_number(10, 3); /* groups */
    CHECK(with(0, 1025) && !with(0, 1) && !with(0, 1024) && !with(0, 1026) && !with(0, 1281) && !with(0, 0)); /* stage and version */
    CHECK(with(1, 512) && !with(1, 513) && !with(1, 127) && !with(1, (UINT64_C(1) << 32) + 128) && !with(2, 2) && !with(3, 2) && !with(6, 8));
    CHECK(with(7, 15) && !with(7, 16) && !with(20, 3) && with(20, 2) && !with(35, UINT64_C(1) << 8));
    CHECK(!with(8, 8) && with(8, 7) && !with(9, 1));
    set_number(8, 3);
    CHECK(with(9, 7) && !with(9, 8));
    CHECK(with(10, most) && !with(10, most + 1) && !with(10, UINT64_MAX) && !with(10, UINT64_C(1) << 61));
    CHECK(with(11, 3 * L - 1) && !with(11, 3 * L) && with(11, 0));
    CHECK(!with(12, 9) && !with(13, 1) && !with(14, 1));
    /* 2^40 is 256 bytes above whole groups of 384 */
    CHECK(SIZE_MOST % GROUP == 256);
    set_number(10, most);
    CHECK(with(100, 256) && !with(100, 257) && !with(100, GROUP));
    set_number(10, 3);
    CHECK(with(100, GROUP - 1) && !with(100, GROUP) && !with(100, UINT64_MAX));
    state[IND_STATE_BYTES - 1] = 1;
    CHECK(!passes());
    state[IND_STATE_BYTES - 1] = 0, state[1024] = 1;
    CHECK(!passes() && with(100, 1));
    state[1024] = 0, state[808] = 1;
    CHECK(!passes());
    state[808] = 0;
    /* the words held: the first of one item, on a bus of its kind, not completing it */
    CHECK(!with(15, 1) && !with(16, COMMAND_9));
    set_number(15, 1);
    CHECK(with(16, COMMAND_9) && with(16, RESPONSE) && with(16, SYLLABLE_0) && !with(16, DATA_1) && !with(16, NOTICE_0) && !with(16, LOW_0));
    CHECK(!with(16, FILL_ON_0) && !with(16, COMMAND_9 | 1 << 24) && !with(16, 0x3F0009) && !with(16, 0x242710));
    set_number(16, SYLLABLE_0), set_number(15, 2);
    CHECK(with(17, LOW_0) && !with(17, 0x5A0001) && !with(17, 0x570001) && !with(17, SYLLABLE_0));
    set_number(17, LOW_0), set_number(15, 3);
    CHECK(with(18, 0x570001) && !with(18, LOW_0) && !with(18, 0x560001) && !with(18, USER_5));
    set_number(18, 0x570001), set_number(15, 4);
    CHECK(with(19, 0x560001) && !with(19, 0x550001) && !with(15, 5));
    set_number(16, COMMAND_9), set_number(17, HIGH_TIME), set_number(18, LOW_TIME), set_number(15, 3);
    CHECK(passes() && !with(15, 2) && !with(15, 4) && !with(19, MICRO));
    for (uint32_t n = 15; n < 20; n++)
        set_number(n, 0);
    /* notices: numbers of data slots in the groups read, on ARINC buses; three time words are dealt before the first slot */
    CHECK(with(36 + 20, 4) && !with(36 + 20, 3) && with(36 + 23, 2048 + L - 1) && !with(36 + 20, L) && !with(36 + 20, 2048));
    CHECK(with(36 + 20, 2 * 2048 + 4) && !with(36 + 20, 3 * 2048 + 4) && !with(36 + 8, 4) && !with(36, 4) && !with(99, 4));
    /* a fault: 9 to 13 or 15, places below 2^40 / 3, a second place of 13 alone, and nothing else */
    memset(state, 0, sizeof state);
    CHECK(!passes());
    set_number(0, 1026), set_number(12, 13);
    CHECK(passes() && with(12, 9) && with(12, 15) && !with(12, 8) && !with(12, 14) && !with(12, 16) && !with(12, (UINT64_C(1) << 32) + 9));
    CHECK(with(13, SIZE_MOST / 3) && !with(13, SIZE_MOST / 3 + 1) && with(14, SIZE_MOST / 3) && !with(14, SIZE_MOST / 3 + 1) && !with(1, 1));
    CHECK(!with(99, 1) && !with(100, 1) && !with(10, 1));
    set_number(12, 11);
    CHECK(!with(14, 1) && with(13, 1));
    set_number(13, 7);
    CHECK(is(feed(capture_bytes, 9), 11, 7, 0, 0, 0) && is(close_state(), 11, 7, 0, 0, 0) && closed());
}

/* "worked on as they say", whether or not a capture leads there: near the size's end, and places of no capture. */
static void worked_on(void)
{
    uint8_t before[IND_STATE_BYTES];
    const uint64_t most = SIZE_MOST / GROUP;
    size_t bytes;
    plan_is(1, 0, 0, 0);
    bytes = CAPTURE(DATA_7, HIGH_TIME);
    open_state();
    set_number(10, most - 1);
    memcpy(before, state, sizeof state);
    /* "8 when the size is crossed, that piece unread and the state unchanged", before any fault in it; then a shorter piece is read */
    CHECK(is(feed(capture_bytes, GROUP + 257), 8, (most - 1) * GROUP, 0, 0, 0) && same_state(before));
    CHECK(is(feed(capture_bytes, GROUP), 13, (most - 1) * L + 2, (most - 1) * L + 2, 0, 0));
    bytes = CAPTURE(DATA_7);
    memcpy(state, before, sizeof state);
    CHECK(is(feed(capture_bytes, bytes), 0, 0, 0, 3, 0));
    CHECK(is(feed(capture_bytes, 256), 0, 0, 0, 0, 0)); /* 2^40 bytes are allowed, and never whole groups */
    CHECK(is(feed(NULL, 0), 0, 0, 0, 0, 0) && is(feed(capture_bytes, 1), 8, SIZE_MOST, 0, 0, 0));
    CHECK(is(close_state(), 8, SIZE_MOST, 0, 0, 0) && closed());
    /* a place that is no item's first word is told all the same */
    open_state();
    set_number(10, 5), set_number(15, 1), set_number(16, RESPONSE), set_number(11, 0);
    CHECK(is(close_state(), 13, 0, 0, 0, 0));
    open_state();
    set_number(10, 5), set_number(36 + 20, 3 * 2048 + 9), set_number(36 + 21, 4 * 2048 + 1);
    CHECK(is(close_state(), 15, 3 * L + 9, 0, 0, 0));
}

/* ---- The room: the worst plan, three tracks of 455 words, two groups in a call ---- */

static void room(void)
{
    enum { LONG = 455, ROWS = 3 * LONG, BIG = 3 * ROWS };
    static uint8_t groups[3 * BIG];
    plan p;
    ind_answer a;
    plan_is(3, 0, 0, 0);
    CHECK(plan_of(&p, LONG, 3, 0, 0, 0, 3, 0, kinds, 16));
    for (uint64_t n = 0; n < 3 * ROWS; n++)
        store(groups, n, n % LONG == 0 ? SYNC : n < ROWS ? FILL_ON_0 : STATUS_1);
    for (uint64_t n = 0; n < 8; n++) /* seven bits are left, and a command is held */
        store(groups, dealt_place(&p, 0, n), n < 7 ? DATA_7 : COMMAND_9);
    CHECK(ind_stream_open(LONG, 3, 0, 0, 0, 3, 0, kinds, 16, state, sizeof state).number == 0);
    CHECK(is(feed(groups, BIG), 0, 0, 0, 21, 0));
    CHECK(is(feed(groups + BIG, BIG - 1), 0, 0, 0, 0, 0));
    a = feed(groups + BIG + BIG - 1, PIECE_MOST);
    CHECK(is(a, 0, 0, 0, (7 + 26 + 2 * 1362 * 26) / 8, 0) && a.bytes == 8857);
    CHECK(is(close_state(), 0, 0, 0, 1, 0));
}

void selftest_stream(void)
{
    accepted();
    group_faults();
    open_notices();
    ends();
    refused_first();
    written_test();
    worked_on();
    room();
}
