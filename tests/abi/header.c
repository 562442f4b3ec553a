/* include/vinculampe.h as C99 and as C++: its example, and its sizes computed again from the items' bits. */
#include <stdio.h>
#include <stdlib.h>
#include <string.h>

#include "../../include/vinculampe.h"

#define CHECK(claim) \
    do { \
        if (!(claim)) { \
            printf("header: %s\n", #claim); \
            exit(1); \
        } \
    } while (0)

/* Bits and words of the items, tagged ones apart. */
static const size_t items[10][2] = {{26, 1}, {72, 4}, {26, 1}, {40, 2}, {25, 1}, {43, 2}, {89, 5}, {18, 1}, {25, 1}, {24, 1}};

static size_t most[8 * VIN_LOG_MAX - 3]; /* words that so many bits can hold */

static void fill_most(void)
{
    for (size_t bits = 1; bits <= 8 * VIN_LOG_MAX - 4; bits++) {
        most[bits] = most[bits - 1];
        for (int n = 0; n < 10; n++)
            if (items[n][0] <= bits && most[bits - items[n][0]] + items[n][1] > most[bits])
                most[bits] = most[bits - items[n][0]] + items[n][1];
    }
}

/* The largest capture and the most groups, over every legal plan. */
static void sizes(void)
{
    size_t largest = 0, groups_most = 0, all = most[8 * VIN_LOG_MAX - 4];
    for (size_t words = 128; words <= 512; words++)
        for (size_t tracks = 1; tracks <= 4; tracks++)
            for (int choices = 0; choices < 4; choices++) {
                int frame_time = choices & 1, crc = choices >> 1;
                size_t slots = VIN_GROUP_SLOTS(words, tracks, frame_time, crc), groups = (all + slots - 1) / slots;
                if (groups * VIN_GROUP_BYTES(words, tracks) > largest)
                    largest = groups * VIN_GROUP_BYTES(words, tracks);
                if (groups > groups_most)
                    groups_most = groups;
                CHECK(VIN_COMPOSED_GROUPS(VIN_LOG_MAX, words, tracks, frame_time, crc) == groups);
            }
    CHECK(VIN_COMPOSED_WORDS(0) == 0 && VIN_COMPOSED_BYTES(0, 129, 1, 0, 0) == 0);
    CHECK(all == 14726 && VIN_COMPOSED_WORDS(VIN_LOG_MAX) == all);
    CHECK(largest == VIN_COMPOSED_MAX && VIN_COMPOSED_BYTES(VIN_LOG_MAX, 462, 4, 0, 1) == largest);
    CHECK(groups_most == VIN_COMPOSED_GROUPS_MAX);
    for (size_t bytes = 1; bytes <= VIN_LOG_MAX; bytes++)
        CHECK(most[8 * bytes - 4] <= VIN_COMPOSED_WORDS(bytes));
    CHECK(VIN_READ_GROUPS(VIN_CAPTURE_MAX, 128, 1) == VIN_READ_GROUPS_MAX);
    CHECK(VIN_READ_LOG_BYTES(0) == 1 && VIN_READ_LOG_BYTES(387) == 420 && VIN_READ_LOG_BYTES(VIN_CAPTURE_MAX) == VIN_LOG_MAX);
    CHECK(VIN_READ_TIMES_BYTES(774, 129, 1, 1) == 16 && VIN_READ_TIMES_BYTES(774, 129, 1, 0) == 0);
}

static void example(void)
{
    static const uint8_t log[] = {0x32, 0x5F, 0x77, 0x80};
    static uint8_t capture[VIN_COMPOSED_MAX], back[VIN_LOG_MAX];
    vin_plan plan = VIN_PLAN_INIT(129, 1);
    vin_answer a;
    plan.parity = 1;
    plan.kinds[2] = VIN_KIND_1553;
    a = vin_plan_compose(&plan, log, sizeof log, NULL, 0, capture, sizeof capture);
    CHECK(a.number == VIN_DONE && a.bytes == 387);
    a = vin_plan_read_closed(&plan, capture, (size_t)a.bytes, back, sizeof back, NULL, 0);
    CHECK(a.number == VIN_DONE && a.bytes == sizeof log && memcmp(back, log, sizeof log) == 0);
    a = vin_plan_read(&plan, NULL, 0, back, sizeof back, NULL, 0);
    CHECK(a.number == VIN_DONE && a.bytes == 1 && back[0] == 0);
    a = vin_plan_compose(&plan, NULL, 0, NULL, 0, NULL, 0);
    CHECK(a.number == VIN_LOG && a.place == 0);
    a = vin_plan_compose(&plan, log, sizeof log, NULL, 0, NULL, 0);
    CHECK(a.number == VIN_ROOM && a.place == 387);
    for (uint32_t number = 0; number <= VIN_REPORT_ROOM; number++)
        CHECK(strlen(vin_text(number)) > 0);
}

/* The functions on logs: what the header says of sizes, sets, null pointers, and one log given twice. */
static void on_logs(void)
{
    static const uint8_t log[] = {0x32, 0x5F, 0x77, 0x80}, twice[] = {0x32, 0x5F, 0x77, 0x99, 0x2F, 0xBB, 0xC0};
    static uint8_t made[VIN_LOG_MAX];
    vin_answer a;
    CHECK(VIN_PICKED_BYTES(13) == 13 && VIN_JOINED_BYTES(4, 4) == 8 && VIN_JOINED_BYTES(20000, 20000) == VIN_LOG_MAX);
    CHECK(VIN_BUS_BIT(0) == 1 && VIN_BUS_BIT(15) == 0x8000 && VIN_ALL_BUSES == 0xFFFF);
    a = vin_log_pick(log, sizeof log, VIN_BUS_BIT(2), made, sizeof made);
    CHECK(a.number == VIN_DONE && a.bytes == sizeof log && memcmp(made, log, sizeof log) == 0);
    a = vin_log_pick(log, sizeof log, (uint16_t)(VIN_ALL_BUSES - VIN_BUS_BIT(2)), made, sizeof made);
    CHECK(a.number == VIN_DONE && a.bytes == 1 && made[0] == 0);
    a = vin_log_pick(log, sizeof log, VIN_ALL_BUSES, NULL, 0);
    CHECK(a.number == VIN_ROOM && a.place == sizeof log);
    a = vin_log_pick(NULL, 0, VIN_ALL_BUSES, NULL, 0);
    CHECK(a.number == VIN_LOG && a.place == 0);
    a = vin_log_join(log, sizeof log, log, sizeof log, made, sizeof made);
    CHECK(a.number == VIN_DONE && a.bytes == sizeof twice && memcmp(made, twice, sizeof twice) == 0);
    a = vin_log_join(log, sizeof log, NULL, 0, NULL, 0);
    CHECK(a.number == VIN_LOG && a.place == 0);
    a = vin_log_join(log, sizeof log, log, sizeof log, NULL, 0);
    CHECK(a.number == VIN_ROOM && a.place == sizeof twice);
    a = vin_log_profile(log, sizeof log);
    CHECK(a.number == VIN_DONE && a.place == 0 && a.bytes == 0);
    a = vin_log_profile(NULL, 0);
    CHECK(a.number == VIN_LOG && a.place == 0);
}

/* A command at 10005 and a frame time at 5, moved back by five microseconds; then what cannot be. */
static void shifted(void)
{
    static const uint8_t log[] = {0x12, 0x42, 0x10, 0xC0, 0, 0, 0, 0x40, 0x05, 0}, moved[] = {0x12, 0x42, 0x10, 0xC0, 0, 0, 0, 0x40, 0, 0};
    static uint8_t made[sizeof log], times[VIN_TIME_BYTES + 1] = {0, 0, 0, 0, 0, 0, 0, 5, 0xA5};
    vin_answer a = vin_shift(log, sizeof log, -5, times, sizeof times, made, sizeof made);
    CHECK(a.number == VIN_DONE && a.bytes == sizeof log && a.times == 1 && memcmp(made, moved, sizeof log) == 0);
    CHECK(times[7] == 0 && times[8] == 0xA5);
    a = vin_log_shift(log, sizeof log, -10006, NULL, 0, made, sizeof made);
    CHECK(a.number == VIN_SHIFT && a.place == 0);
    a = vin_log_shift(log, sizeof log, -10005, times, sizeof times, made, sizeof made);
    CHECK(a.number == VIN_SHIFT && a.place == 0 && times[7] == 0);
    a = vin_log_shift(log, sizeof log, -VIN_SHIFT_MOST - 1, NULL, 0, made, sizeof made);
    CHECK(a.number == VIN_SHIFT && a.place == 0);
    a = vin_log_shift(log, sizeof log, VIN_SHIFT_MOST, NULL, 0, NULL, 0);
    CHECK(a.number == VIN_ROOM && a.place == sizeof log);
    a = vin_log_shift(NULL, 0, 0, NULL, 0, NULL, 0);
    CHECK(a.number == VIN_LOG && a.place == 0);
    CHECK(strcmp(vin_text(VIN_SHIFT), vin_text(99)) != 0);
}

/* Replaying: the limits, null pointers, and that the room suffices, also where every other item is lost and each mark is longer. */
static void replaying(void)
{
    static const uint8_t log[] = {0x32, 0x5F, 0x77, 0x80}, events[] = {VIN_ITEM_ARRIVES, VIN_GROUP_LEAVES, VIN_GROUP_LEAVES};
    static uint8_t made[VIN_LOG_MAX], groups[VIN_EVENTS_MAX + 1];
    vin_replayed r = vin_log_replay(log, sizeof log, events, 1, VIN_BUFFER_LEAST, VIN_SLOTS_MOST, made, sizeof made);
    CHECK(r.number == VIN_DONE && r.bytes == sizeof log && r.sent == 0 && r.lost == 0 && r.held == 1);
    CHECK(memcmp(made, log, sizeof log) == 0);
    r = vin_log_replay(log, sizeof log, events, sizeof events, VIN_BUFFER_MOST, 1, made, sizeof made);
    CHECK(r.number == VIN_DONE && r.sent == 1 && r.held == 0);
    r = vin_log_replay(log, sizeof log, NULL, 0, VIN_BUFFER_LEAST, 1, NULL, 0);
    CHECK(r.number == VIN_ROOM && r.place == 1);
    r = vin_log_replay(NULL, 0, NULL, 0, VIN_BUFFER_LEAST, 1, NULL, 0);
    CHECK(r.number == VIN_LOG && r.place == 0);
    r = vin_log_replay(log, sizeof log, events, 1, VIN_BUFFER_LEAST - 1, 1, made, sizeof made);
    CHECK(r.number == VIN_REPLAY && r.place == 0);
    r = vin_log_replay(log, sizeof log, events, 1, VIN_BUFFER_MOST + 1, 1, made, sizeof made);
    CHECK(r.number == VIN_REPLAY);
    r = vin_log_replay(log, sizeof log, events, 1, VIN_BUFFER_LEAST, VIN_SLOTS_MOST + 1, made, sizeof made);
    CHECK(r.number == VIN_REPLAY);
    memset(groups, VIN_GROUP_LEAVES, sizeof groups);
    r = vin_log_replay(log, sizeof log, groups, VIN_EVENTS_MAX, VIN_BUFFER_LEAST, 1, made, sizeof made);
    CHECK(r.number == VIN_DONE);
    r = vin_log_replay(log, sizeof log, groups, VIN_EVENTS_MAX + 1, VIN_BUFFER_LEAST, 1, made, sizeof made);
    CHECK(r.number == VIN_REPLAY);
    for (size_t bytes = 1; bytes <= VIN_LOG_MAX; bytes++) {
        size_t bits = 8 * bytes - 4, longer = (bits / 36 * 42 + bits % 36 + 4 + 7) / 8;
        CHECK((longer < VIN_LOG_MAX ? longer : VIN_LOG_MAX) <= VIN_REPLAYED_BYTES(bytes));
    }
}

/* The halves of a reading: their sizes, null pointers, and that the two together are the reading. */
static void halves(void)
{
    static const uint8_t log[] = {0x32, 0x5F, 0x77, 0x80};
    static uint8_t capture[VIN_GROUP_BYTES(129, 1)], back[VIN_LOG_MAX];
    static uint32_t words[128];
    vin_plan plan = VIN_PLAN_INIT(129, 1);
    vin_answer a;
    plan.parity = 1;
    plan.kinds[2] = VIN_KIND_1553;
    CHECK(VIN_WORDS_MAX == VIN_CAPTURE_MAX / 3 && VIN_READ_WORDS(3 * 387, 129, 1, 1, 1) == 3 * 124);
    CHECK(VIN_ITEMS_LOG_BYTES(0) == 1 && VIN_ITEMS_LOG_BYTES(1) == 4 && VIN_ITEMS_LOG_BYTES(VIN_WORDS_MAX) == VIN_LOG_MAX);
    a = vin_plan_compose(&plan, log, sizeof log, NULL, 0, capture, sizeof capture);
    CHECK(a.number == VIN_DONE && a.bytes == sizeof capture);
    a = vin_plan_read_words(&plan, capture, sizeof capture, NULL, 0, NULL, 0);
    CHECK(a.number == VIN_ROOM && a.place == 128 && VIN_READ_WORDS(sizeof capture, 129, 1, 0, 0) == 128);
    a = vin_plan_read_words(&plan, capture, sizeof capture, words, 128, NULL, 0);
    CHECK(a.number == VIN_DONE && a.bytes == 128 && a.times == 0);
    CHECK(words[0] == 0x2DBEEF && words[1] == 0x01AAAA && words[127] == 0x01AAAA);
    a = vin_plan_read_items(&plan, words, 128, back, sizeof back);
    CHECK(a.number == VIN_DONE && a.bytes == sizeof log && memcmp(back, log, sizeof log) == 0);
    words[1] = 0x1000000;
    a = vin_plan_read_items(&plan, words, 128, back, sizeof back);
    CHECK(a.number == VIN_DATA_WORD && a.place == 1 && a.second == 1);
    a = vin_plan_read_items(&plan, NULL, 0, NULL, 0);
    CHECK(a.number == VIN_ROOM && a.place == 1);
    a = vin_plan_read_words(&plan, NULL, 0, NULL, 0, NULL, 0);
    CHECK(a.number == VIN_DONE && a.bytes == 0 && a.times == 0);
}

/* Salvage: a command, a group without its sync word, a data word; sizes, entries and null pointers. */
static void salvaged(void)
{
    enum { GROUP = VIN_GROUP_BYTES(128, 1) };
    static const uint8_t data_word[] = {0x32, 0x5F, 0x77, 0x80};
    static uint8_t capture[3 * GROUP], log[VIN_LOG_MAX];
    static uint64_t report[VIN_REPORT_ENTRIES(sizeof capture, 128, 1, 0, 0)];
    vin_plan plan = VIN_PLAN_INIT(128, 1);
    vin_salvaged a;
    plan.kinds[2] = VIN_KIND_1553;
    CHECK(sizeof report / sizeof *report == 3 * 127 && VIN_REPORT_ENTRIES(2 * GROUP, 128, 1, 1, 1) == 2 * 123);
    CHECK(VIN_ENTRY_NUMBER(UINT64_C(0x900000002)) == VIN_SYNC && VIN_ENTRY_INDEX(UINT64_C(0x900000002)) == 2);
    for (size_t n = 0; n < sizeof capture / 3; n++)
        memcpy(capture + 3 * n, n % 128 == 0 && n != 128 ? "\xFA\xF3\x20" : "\x01\xAA\xAA", 3);
    memcpy(capture + 3, "\x2F\x08\x43", 3);
    memcpy(capture + 2 * GROUP + 3, "\x2D\xBE\xEF", 3);
    a = vin_plan_salvage(&plan, capture, sizeof capture, log, sizeof log, NULL, 0, report, sizeof report / sizeof *report);
    CHECK(a.number == VIN_DONE && a.place == 0 && a.second == 0 && a.times == 0 && a.entries == 2);
    CHECK(a.bytes == sizeof data_word && memcmp(log, data_word, sizeof data_word) == 0);
    CHECK(VIN_ENTRY_NUMBER(report[0]) == VIN_DONE && VIN_ENTRY_INDEX(report[0]) == 1);
    CHECK(VIN_ENTRY_NUMBER(report[1]) == VIN_SYNC && VIN_ENTRY_INDEX(report[1]) == 1);
    a = vin_plan_salvage(&plan, capture, sizeof capture, log, sizeof log, NULL, 0, NULL, 0);
    CHECK(a.number == VIN_REPORT_ROOM && a.place == 2 && a.bytes == 0 && a.entries == 0);
    a = vin_plan_salvage(&plan, NULL, 0, NULL, 0, NULL, 0, NULL, 0);
    CHECK(a.number == VIN_ROOM && a.place == 1);
}

/* A stream: a command whose tag ends in the next piece, a fault, a plan that is illegal; sizes and null pointers. */
static void streamed(void)
{
    enum { GROUP = VIN_GROUP_BYTES(128, 1) };
    static const uint8_t tagged[] = {0x12, 0x42, 0x10, 0xC0, 0x00, 0x00, 0x00, 0x40, 0x05, 0x00};
    static uint8_t capture[2 * GROUP], state[VIN_STATE_BYTES], log[VIN_STREAM_LOG_ROOM];
    size_t most_groups = 0;
    vin_plan plan = VIN_PLAN_INIT(128, 1);
    vin_answer a;
    plan.kinds[2] = VIN_KIND_1553;
    for (size_t words = 128; words <= 512; words++)
        for (size_t tracks = 1; tracks <= 4; tracks++) {
            size_t groups = VIN_STREAM_GROUPS(VIN_PIECE_MAX, words, tracks);
            most_groups = groups > most_groups ? groups : most_groups;
            CHECK((groups * VIN_GROUP_SLOTS(words, tracks, 0, 0) * 26 + 43 + 7) / 8 <= 8859);
        }
    CHECK(most_groups == VIN_STREAM_TIMES_MAX && VIN_STREAM_GROUPS(0, 128, 1) == 0 && VIN_STREAM_GROUPS(1, 128, 1) == 1);
    CHECK(VIN_STREAM_MAX == UINT64_C(1) << 40);
    for (size_t n = 0; n < sizeof capture / 3; n++)
        memcpy(capture + 3 * n, n % 128 == 0 ? "\xFA\xF3\x20" : "\x01\xAA\xAA", 3);
    memcpy(capture + GROUP - 9, "\x2F\x08\x43\x27\x00\x00\x26\x00\x01", 9);
    memcpy(capture + GROUP + 3, "\x25\x00\x05", 3);
    a = vin_plan_stream_open(&plan, state, sizeof state);
    CHECK(a.number == VIN_DONE && a.bytes == 0);
    a = vin_plan_stream_feed(state, sizeof state, capture, GROUP, log, sizeof log, NULL, 0);
    CHECK(a.number == VIN_DONE && a.bytes == 0 && a.times == 0);
    a = vin_plan_stream_feed(state, sizeof state, NULL, 0, log, sizeof log, NULL, 0);
    CHECK(a.number == VIN_DONE && a.bytes == 0);
    a = vin_plan_stream_feed(state, sizeof state, capture + GROUP, GROUP, log, sizeof log, NULL, 0);
    CHECK(a.number == VIN_DONE && a.bytes == 9 && memcmp(log, tagged, 9) == 0);
    a = vin_plan_stream_close(state, sizeof state, log, sizeof log);
    CHECK(a.number == VIN_DONE && a.bytes == 1 && log[0] == tagged[9]);
    a = vin_plan_stream_close(state, sizeof state, log, sizeof log);
    CHECK(a.number == VIN_STREAM && a.place == 0);
    vin_plan_stream_open(&plan, state, sizeof state);
    a = vin_plan_stream_feed(state, sizeof state, capture + 1, GROUP, log, sizeof log, NULL, 0);
    CHECK(a.number == VIN_SYNC && a.place == 0);
    a = vin_plan_stream_close(state, sizeof state, log, sizeof log);
    CHECK(a.number == VIN_SYNC && a.place == 0 && a.bytes == 0);
    CHECK(vin_plan_stream_open(&plan, NULL, 0).number == VIN_STREAM);
    CHECK(vin_plan_stream_feed(NULL, 0, NULL, 0, NULL, 0, NULL, 0).number == VIN_STREAM);
    CHECK(vin_plan_stream_close(NULL, 0, NULL, 0).number == VIN_STREAM);
    plan.words = 127;
    CHECK(vin_plan_stream_open(&plan, state, sizeof state).number == VIN_PLAN && state[7] == 0);
}

/* The most groups that a capture can have: all their times are given where there is room, and 7 says how many are needed. */
static void most_groups(void)
{
    static uint8_t capture[VIN_CAPTURE_MAX], log[VIN_LOG_MAX], times[VIN_READ_GROUPS_MAX * VIN_TIME_BYTES];
    size_t size = VIN_GROUP_BYTES(128, 1), bytes = VIN_READ_GROUPS_MAX * size;
    vin_plan plan = VIN_PLAN_INIT(128, 1);
    vin_answer a;
    plan.frame_time = 1;
    plan.kinds[2] = VIN_KIND_1553;
    for (size_t at = 0; at < bytes; at += 3) {
        static const uint8_t front[4][3] = {{0xFA, 0xF3, 0x20}, {0x07, 0, 0}, {0x06, 0, 0}, {0x05, 0, 0}}, fill[3] = {0x01, 0xAA, 0xAA};
        size_t word = at % size / 3;
        memcpy(capture + at, word < 4 ? front[word] : fill, 3);
        if (word == 3) {
            capture[at + 1] = (uint8_t)(at / size >> 8);
            capture[at + 2] = (uint8_t)(at / size);
        }
    }
    a = vin_plan_read(&plan, capture, bytes, log, sizeof log, times, sizeof times - 1);
    CHECK(a.number == VIN_TIME_ROOM && a.place == VIN_READ_GROUPS_MAX);
    a = vin_plan_read(&plan, capture, bytes, log, sizeof log, times, sizeof times);
    CHECK(a.number == VIN_DONE && a.bytes == 1 && a.times == VIN_READ_GROUPS_MAX);
    for (size_t group = 0; group < VIN_READ_GROUPS_MAX; group++)
        CHECK(times[8 * group + 6] == group >> 8 && times[8 * group + 7] == (group & 255));
}

/* The whole plan: a label and a code above their limits are refused whatever else is chosen, and so is one that is set in a plan not
 * begun with VIN_PLAN_INIT; a plan of zeros there has the usual ones. */
static void full_plans(void)
{
    static const uint8_t log[] = {0x32, 0x5F, 0x77, 0x80};
    static uint8_t capture[VIN_GROUP_BYTES(128, 1)], back[4];
    for (uint32_t parity = 0; parity <= 1; parity++)
        for (uint32_t label = 0; label <= 9; label++)
            for (uint32_t code = 0; code <= 17; code++)
                for (uint32_t full = 0; full <= 2; full++) {
                    vin_plan plan = VIN_PLAN_INIT(128, 1);
                    int legal = full == 1 ? label <= 7 && code <= (parity ? 7 : 15) : full == 0 && label == 0 && code == 0;
                    vin_answer a;
                    plan.crc = 1;
                    plan.parity = parity;
                    plan.kinds[2] = VIN_KIND_1553;
                    plan.full = full;
                    plan.crc_label = label;
                    plan.fill_bus = code;
                    a = vin_plan_compose(&plan, log, sizeof log, NULL, 0, capture, sizeof capture);
                    CHECK(legal ? a.number == VIN_DONE && a.bytes == sizeof capture : a.number == VIN_PLAN && a.place == 0);
                    CHECK(!legal || (capture[sizeof capture - 3] & 0x7F) == (full ? label : VIN_CRC_LABEL));
                    CHECK(!legal || (capture[6] & (parity ? 0x7F : 0xFF)) == (code << 4 | 1));
                    a = vin_plan_read(&plan, capture, sizeof capture, back, sizeof back, NULL, 0);
                    CHECK(legal ? a.number == VIN_DONE && a.bytes == sizeof log : a.number == VIN_PLAN && a.place == 0);
                    a = vin_plan_read_closed(&plan, capture, sizeof capture, back, sizeof back, NULL, 0);
                    CHECK(legal ? a.number == VIN_DONE && a.bytes == sizeof log : a.number == VIN_PLAN && a.place == 0);
                }
}

/* A plan begun with VIN_PLAN_INIT is the plan of these numbers with nothing chosen; the version's number is its text's. */
static void names(void)
{
    static const uint8_t none[16] = {0};
    unsigned major = 0, minor = 0, patch = 0;
    vin_plan plan = VIN_PLAN_INIT(511, 4);
    CHECK(plan.words == 511 && plan.tracks == 4 && plan.frame_time == 0 && plan.crc == 0 && plan.parity == 0);
    CHECK(memcmp(plan.kinds, none, sizeof none) == 0);
    CHECK(plan.full == 1 && plan.crc_label == 3 && plan.fill_bus == 0 && VIN_CRC_LABEL == 3 && VIN_FILL_BUS == 0);
    CHECK(sscanf(VIN_VERSION, "%u.%u.%u", &major, &minor, &patch) == 3);
    CHECK(VIN_VERSION_NUMBER == 10000 * major + 100 * minor + patch);
}

int main(void)
{
    names();
    fill_most();
    sizes();
    example();
    on_logs();
    shifted();
    replaying();
    halves();
    salvaged();
    streamed();
    full_plans();
    most_groups();
    puts("header: its sizes, its limits and its example hold");
    return 0;
}
