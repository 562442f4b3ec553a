/* Document 02, K10, over the independent implementation: salvage, by hand. */
#include <string.h>

#include "selftest_capture.h"

enum { LOG_ROOM = 400, TIMES_ROOM = 64, REPORT_ROOM = 300 };

static uint8_t log_out[LOG_ROOM], times_out[TIMES_ROOM];
static uint64_t report_out[REPORT_ROOM];

/* A dropped group's entry; a word's is its place. */
#define GROUP_ENTRY(number, group) ((uint64_t)(number) << 32 | (group))

/* A report of so many entries. */
#define NONE NULL, 0
#define REPORT(...) (uint64_t[]){__VA_ARGS__}, sizeof(uint64_t[]){__VA_ARGS__} / sizeof(uint64_t)

static ind_salvaged salvage_of(size_t bytes, size_t log_len, size_t times_len, size_t report_len)
{
    memset(log_out, 0xA5, sizeof log_out);
    memset(times_out, 0xA5, sizeof times_out);
    memset(report_out, 0xA5, sizeof report_out);
    return ind_salvage(L, tracks, frame_time, crc, parity, 3, 0, kinds, 16, capture_bytes, bytes, log_out, log_len, times_out, times_len,
                       report_out, report_len);
}

static bool untouched(const void *lent, size_t from, size_t size)
{
    for (size_t n = from; n < size; n++)
        if (((const uint8_t *)lent)[n] != 0xA5)
            return false;
    return true;
}

/* A refusal, with everything as it was. */
static bool is_refused(ind_salvaged a, uint32_t number, uint64_t place)
{
    return a.number == number && a.place == place && a.second == 0 && a.bytes == 0 && a.times == 0 && a.entries == 0
           && untouched(log_out, 0, sizeof log_out) && untouched(times_out, 0, sizeof times_out)
           && untouched(report_out, 0, sizeof report_out);
}

/* Whether the log is listed so, the report is this, and so many times are given; with exact room, and each room one too short refused. */
static bool salvages(size_t bytes, const char *text, uint64_t times, const uint64_t *report, size_t entries)
{
    static char listed[4000];
    size_t log_bytes;
    ind_salvaged a = salvage_of(bytes, sizeof log_out, sizeof times_out, REPORT_ROOM);
    if (a.number != 0 || a.place != 0 || a.second != 0 || a.times != times || a.entries != entries)
        return false;
    log_bytes = (size_t)a.bytes;
    a = salvage_of(bytes, log_bytes, 8 * (size_t)times, entries);
    if (a.number != 0 || a.bytes != log_bytes || !untouched(log_out, log_bytes, sizeof log_out)
        || !untouched(times_out, 8 * (size_t)times, sizeof times_out) || !untouched(report_out, 8 * entries, sizeof report_out))
        return false;
    if (entries > 0 && memcmp(report_out, report, 8 * entries) != 0)
        return false;
    if (ind_list(log_out, log_bytes, listed, sizeof listed) != strlen(text) || memcmp(listed, text, strlen(text)) != 0)
        return false;
    return is_refused(salvage_of(bytes, log_bytes - 1, 0, 0), 6, log_bytes)
           && (times == 0 || is_refused(salvage_of(bytes, log_bytes, 8 * (size_t)times - 1, 0), 7, times))
           && (entries == 0 || is_refused(salvage_of(bytes, log_bytes, 8 * (size_t)times, entries - 1), 20, entries));
}

/* Words of one group, as they are. */
#define CAPTURE(...) capture_words((uint32_t[]){__VA_ARGS__}, sizeof(uint32_t[]){__VA_ARGS__} / sizeof(uint32_t))

#define UNUSED_3 0x320000u
#define LOW_TIME 0x260002u
#define MICRO 0x250003u
#define STATUS_1 0x2E0001u
#define LOW_1 0x5A0002u /* channel 1 of bus 5 */
#define USER_1 0x220001u

/* "A word that cannot continue the unfinished item drops that item's words and is tried as a start; if it starts nothing it is dropped
 * too." Word n of a group of one track stands at place n + 1. */
static void words_dropped(void)
{
    plan_is(1, 0, 0, 0);
    CHECK(salvages(0, "end 0\n", 0, NONE));
    CHECK(salvages(CAPTURE(DATA_1), "dat 2 A 0001\nend 1\n", 0, NONE));
    CHECK(salvages(CAPTURE(UNUSED_3, DATA_1, 0x01AAAB), "dat 2 A 0001\nend 1\n", 0, REPORT(1, 3)));
    /* tried as a start */
    CHECK(salvages(CAPTURE(RESPONSE, DATA_1), "dat 2 A 0001\nend 1\n", 0, REPORT(1)));
    CHECK(salvages(CAPTURE(RESPONSE, RESPONSE, STATUS_1), "sta 2 A 0001 resp 5\nend 1\n", 0, REPORT(1)));
    CHECK(salvages(CAPTURE(SYLLABLE_0, FILL_ON_0, SYLLABLE_0, LOW_0), "arn 5 1 00010002\nend 1\n", 0, REPORT(1)));
    /* and dropped too */
    CHECK(salvages(CAPTURE(RESPONSE, LOW_TIME, DATA_1), "dat 2 A 0001\nend 1\n", 0, REPORT(1, 2)));
    CHECK(salvages(CAPTURE(SYLLABLE_0, LOW_1, LOW_0), "end 0\n", 0, REPORT(1, 2, 3)));
    CHECK(salvages(CAPTURE(0x242710, STATUS_1), "sta 2 A 0001\nend 1\n", 0, REPORT(1))); /* a response of 10000 begins nothing */
    CHECK(salvages(CAPTURE(0x54FF00, NOTICE_0), "are 5 1 00\nend 1\n", 0, REPORT(1))); /* an open notice remains */
    /* all of that item's words */
    CHECK(salvages(CAPTURE(COMMAND_9, HIGH_TIME, DATA_1), "dat 2 A 0001\nend 1\n", 0, REPORT(1, 2)));
    CHECK(salvages(CAPTURE(COMMAND_9, HIGH_TIME, LOW_TIME, 0x252710, DATA_1), "dat 2 A 0001\nend 1\n", 0, REPORT(1, 2, 3, 4)));
    CHECK(salvages(CAPTURE(SYLLABLE_0, LOW_0, 0x570000, FILL_ON_0, 0x560000, COMMAND_9), "cmd 2 A 0009\nend 1\n", 0, REPORT(1, 2, 3, 5)));
    /* a finished command is kept, and its time words behind a dropped word no longer follow it */
    CHECK(salvages(CAPTURE(COMMAND_9, UNUSED_3, HIGH_TIME, LOW_TIME, MICRO), "cmd 2 A 0009\nend 1\n", 0, REPORT(2, 3, 4, 5)));
    CHECK(salvages(CAPTURE(COMMAND_9, HIGH_TIME, LOW_TIME, MICRO), "cmd 2 A 0009 at 655380003\nend 1\n", 0, NONE));
    /* "An item left unfinished at the end is dropped"; a command is finished */
    CHECK(salvages(CAPTURE(DATA_1, COMMAND_9), "dat 2 A 0001\ncmd 2 A 0009\nend 2\n", 0, NONE));
    CHECK(salvages(CAPTURE(DATA_1, COMMAND_9, HIGH_TIME, LOW_TIME), "dat 2 A 0001\nend 1\n", 0, REPORT(2, 3, 4)));
    CHECK(salvages(CAPTURE(DATA_1, SYLLABLE_0), "dat 2 A 0001\nend 1\n", 0, REPORT(2)));
}

/* Three groups of one track without anything else: 127 slots each. Groups of fill, with these words at these slots. */
static uint32_t slots[3 * 127];

static void all_fill(void)
{
    for (size_t n = 0; n < 3 * 127; n++)
        slots[n] = FILL_ON_0;
}

static size_t with_group_spoiled(uint64_t group)
{
    size_t bytes = capture_words(slots, 3 * 127);
    store(capture_bytes, group * L, SYNC ^ 1);
    return bytes;
}

/* "Nothing is joined across a dropped group, and a command or ARINC word that is the last data before one, its tag not yet seen, is dropped
 * as well." */
static void groups_dropped(void)
{
    plan_is(1, 0, 0, 0);
    all_fill();
    slots[126] = COMMAND_9;
    CHECK(salvages(with_group_spoiled(1), "end 0\n", 0, REPORT(127, GROUP_ENTRY(9, 1))));
    CHECK(salvages(with_group_spoiled(2), "end 0\n", 0, REPORT(127, GROUP_ENTRY(9, 2)))); /* a group of fill between */
    CHECK(salvages(with_group_spoiled(0), "end 0\n", 0, REPORT(GROUP_ENTRY(9, 0))));
    slots[127] = DATA_1; /* data behind the command */
    CHECK(salvages(with_group_spoiled(2), "cmd 2 A 0009\ndat 2 A 0001\nend 2\n", 0, REPORT(GROUP_ENTRY(9, 2))));
    slots[127] = UNUSED_3; /* also if that is dropped itself */
    CHECK(salvages(with_group_spoiled(2), "cmd 2 A 0009\nend 1\n", 0, REPORT(L + 1, GROUP_ENTRY(9, 2))));
    /* a whole tag, and one that has begun */
    all_fill();
    slots[123] = COMMAND_9, slots[124] = HIGH_TIME, slots[125] = LOW_TIME, slots[126] = MICRO;
    CHECK(salvages(with_group_spoiled(1), "cmd 2 A 0009 at 655380003\nend 1\n", 0, REPORT(GROUP_ENTRY(9, 1))));
    slots[126] = FILL_ON_0, slots[127 + 127] = MICRO;
    CHECK(salvages(with_group_spoiled(1), "end 0\n", 0, REPORT(124, 125, 126, GROUP_ENTRY(9, 1), 2 * L + 1)));
    /* halves on both sides; without the group between they are one */
    all_fill();
    slots[126] = SYLLABLE_0, slots[127 + 127] = LOW_0;
    CHECK(salvages(with_group_spoiled(1), "end 0\n", 0, REPORT(127, GROUP_ENTRY(9, 1), 2 * L + 1)));
    CHECK(salvages(capture_words(slots, 3 * 127), "arn 5 1 00010002\nend 1\n", 0, NONE));
    slots[125] = SYLLABLE_0, slots[126] = LOW_0, slots[127 + 127] = 0x570000;
    CHECK(salvages(with_group_spoiled(1), "end 0\n", 0, REPORT(126, 127, GROUP_ENTRY(9, 1), 2 * L + 1)));
    /* behind it there is no such caution: a status without its response is kept, a tag without its command is not */
    all_fill();
    slots[127 + 126] = RESPONSE, slots[127 + 127] = STATUS_1;
    CHECK(salvages(with_group_spoiled(1), "sta 2 A 0001\nend 1\n", 0, REPORT(GROUP_ENTRY(9, 1))));
    slots[127 + 126] = COMMAND_9, slots[127 + 127] = HIGH_TIME, slots[127 + 128] = LOW_TIME, slots[127 + 129] = MICRO;
    slots[127 + 130] = DATA_1;
    CHECK(salvages(with_group_spoiled(1), "dat 2 A 0001\nend 1\n", 0, REPORT(GROUP_ENTRY(9, 1), 2 * L + 1, 2 * L + 2, 2 * L + 3)));
    /* two groups in a row are one */
    all_fill();
    slots[126] = COMMAND_9, slots[127] = DATA_1;
    with_group_spoiled(1);
    store(capture_bytes, 2 * L, 0);
    CHECK(salvages(3 * GROUP, "end 0\n", 0, REPORT(127, GROUP_ENTRY(9, 1), GROUP_ENTRY(9, 2))));
}

/* "names each dropped group by index with its fault's number": the first in the order of document 01. "The time row has the kept groups
 * only." */
static void numbers_and_times(void)
{
    uint32_t words[4 * 123];
    size_t bytes;
    for (size_t n = 0; n < 4 * 123; n++)
        words[n] = n % 123 == 0 ? DATA_1 : FILL_ON_0;
    plan_is(1, 1, 1, 1);
    bytes = capture_words(words, 4 * 123);
    CHECK(salvages(bytes, "dat 2 A 0001\ndat 2 A 0001\ndat 2 A 0001\ndat 2 A 0001\nend 4\n", 4, NONE));
    store(capture_bytes, 1 * L + 9, 0x01AAAB);                /* even, and the CRC word does not fit */
    store(capture_bytes, 2 * L + L - 1, 0x03FFFF ^ 0x800000); /* the CRC word alone */
    CHECK(salvages(bytes, "dat 2 A 0001\ndat 2 A 0001\nend 2\n", 2, REPORT(GROUP_ENTRY(10, 1), GROUP_ENTRY(11, 2))));
    salvage_of(bytes, LOG_ROOM, TIMES_ROOM, REPORT_ROOM);
    CHECK(time_from_bytes(times_out) == 0 && time_from_bytes(times_out + 8) == time_join((time_words){3, 3, 3}));
    plan_is(1, 1, 0, 0);
    bytes = capture_words(words, 2 * 124);
    store(capture_bytes, L + 1, 0x060000); /* a frame time word's label */
    CHECK(salvages(bytes, "dat 2 A 0001\ndat 2 A 0001\nend 2\n", 1, REPORT(GROUP_ENTRY(12, 1))));
    store(capture_bytes, L, 0);
    CHECK(salvages(bytes, "dat 2 A 0001\ndat 2 A 0001\nend 2\n", 1, REPORT(GROUP_ENTRY(9, 1)))); /* 9 comes before 12 */
}

/* "in dealt order": stored places need not rise. */
static void two_tracks(void)
{
    plan_is(2, 0, 0, 0);
    memset(kinds, 0, sizeof kinds);
    kinds[5] = BUS_ARINC;
    CHECK(salvages(CAPTURE(0x520001, SYLLABLE_0, SYLLABLE_0, 0x520002), "usr 5 2 0001\nusr 5 2 0002\nend 2\n", 0, REPORT(L + 1, 2)));
    CHECK(salvages(CAPTURE(SYLLABLE_0, LOW_1, 0x520002), "usr 5 2 0002\nend 1\n", 0, REPORT(1, L + 1)));
    plan_is(2, 0, 0, 0); /* one track of a group is enough to drop it */
    CAPTURE(DATA_1);
    store(capture_bytes, L, SYNC ^ 1);
    CHECK(salvages(2 * GROUP, "end 0\n", 0, REPORT(GROUP_ENTRY(9, 0))));
}

/* "Refusals: 1, 8, then 6, 7, then 20": each with all that follow it in want, too. */
static void refusals(void)
{
    static uint8_t tape_bytes[100 * GROUP], log[50000];
    size_t bytes;
    plan_is(1, 1, 0, 0);
    bytes = CAPTURE(DATA_1, UNUSED_3);
    CHECK(is_refused(salvage_of(bytes - 1, 0, 0, 0), 8, bytes - 1)); /* a lost byte is not salvaged */
    CHECK(is_refused(salvage_of(bytes + 1, 0, 0, 0), 8, bytes + 1));
    CHECK(is_refused(salvage_of(bytes, 3, 7, 0), 6, 4));
    CHECK(is_refused(salvage_of(bytes, 4, 7, 0), 7, 1));
    CHECK(is_refused(salvage_of(bytes, 4, 8, 0), 20, 1));
    CHECK(salvage_of(bytes, 4, 8, 1).number == 0);
    frame_time = 2;
    CHECK(is_refused(salvage_of(bytes - 1, 0, 0, 0), 1, 0));
    frame_time = 0;
    CHECK(ind_salvage(L, 1, 0, 0, 0, 8, 0, kinds, 16, NULL, 0, NULL, 0, NULL, 0, NULL, 0).number == 1);
    CHECK(ind_salvage(L, 1, 0, 0, 0, 3, 0, kinds, 16, NULL, 0, NULL, 0, NULL, 0, NULL, 0).number == 6);
    /* "or a log above 32,768", whatever is lent: 12,700 commands of 26 bits */
    for (size_t n = 0; n < 100 * L; n++)
        store(tape_bytes, n, n % L == 0 ? SYNC : COMMAND_9);
    CHECK(ind_salvage(L, 1, 0, 0, 0, 3, 0, kinds, 16, tape_bytes, sizeof tape_bytes, log, sizeof log, NULL, 0, NULL, 0).place
          == (12700 * 26 + 4 + 7) / 8);
}

void selftest_salvage(void)
{
    words_dropped();
    groups_dropped();
    numbers_and_times();
    two_tracks();
    refusals();
}
