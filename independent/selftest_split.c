/* Document 02, K3, over the independent implementation: the two halves of a reading, by hand. */
#include <string.h>

#include "selftest_capture.h"

static uint8_t log_out[200], times_out[32];
static uint32_t row_out[8 * L];

static ind_answer words_of(size_t capture_len, size_t row_len, size_t times_len)
{
    memset(row_out, 0xA5, sizeof row_out);
    memset(times_out, 0xA5, sizeof times_out);
    return ind_read_words(L, tracks, frame_time, crc, parity, 3, 0, kinds, 16, capture_bytes, capture_len, row_out, row_len, times_out,
                          times_len);
}

static ind_answer items_of(const uint32_t *row, size_t row_len, size_t log_len)
{
    memset(log_out, 0xA5, sizeof log_out);
    return ind_read_items(L, tracks, frame_time, crc, parity, 3, 0, kinds, 16, row, row_len, log_out, log_len);
}

static bool is_refused(ind_answer a, uint32_t number, uint64_t place, uint64_t second)
{
    return a.number == number && a.place == place && a.second == second && a.bytes == 0 && a.times == 0;
}

static bool untouched(void)
{
    for (size_t n = 0; n < 8 * L; n++)
        if (row_out[n] != 0xA5A5A5A5)
            return false;
    return times_out[0] == 0xA5;
}

static bool makes(ind_answer a, const char *bytes, size_t length)
{
    return a.number == 0 && a.place == 0 && a.second == 0 && a.bytes == length && a.times == 0 && memcmp(log_out, bytes, length) == 0
           && log_out[length] == 0xA5;
}

/* In dealt order, as stored, fill among them. */
static void first_half(void)
{
    const uint32_t three[] = {DATA_1, FILL_ON_0, DATA_1 + 1};
    ind_answer a;
    size_t bytes;
    plan_is(2, 1, 0, 0); /* P8: the first slot is word 3 of track 2 */
    bytes = capture_words(three, 3);
    a = words_of(bytes, 251, 8);
    CHECK(a.number == 0 && a.place == 0 && a.second == 0 && a.bytes == 251 && a.times == 1);
    CHECK(row_out[0] == DATA_1 && row_out[1] == FILL_ON_0 && row_out[2] == DATA_1 + 1 && row_out[3] == FILL_ON_0);
    CHECK(row_out[250] == FILL_ON_0 && row_out[251] == 0xA5A5A5A5 && times_out[7] == 0 && times_out[8] == 0xA5);
    CHECK(stored(capture_bytes, L + 2) == DATA_1 && stored(capture_bytes, 3) == FILL_ON_0);
    /* 6 in words, then 7; both leave everything as it was */
    CHECK(is_refused(words_of(bytes, 250, 7), 6, 251, 0) && untouched());
    CHECK(is_refused(words_of(bytes, 251, 7), 7, 1, 0) && untouched());
    CHECK(is_refused(words_of(bytes - 1, 0, 0), 8, bytes - 1, 0));
    CHECK(is_refused(words_of(bytes - GROUP, 0, 0), 8, bytes - GROUP, 0)); /* one track of two */
    a = words_of(0, 0, 0);
    CHECK(a.number == 0 && a.bytes == 0 && a.times == 0 && untouched());
    plan_is(1, 0, 0, 1); /* with parity bit 1 stays: odd on bus 2 as it is */
    bytes = capture_words((uint32_t[]){DATA_1, COMMAND_9, 0xA40005}, 3);
    a = words_of(bytes, 127, 0);
    CHECK(a.number == 0 && a.bytes == 127 && row_out[2] == 0xA40005);
}

/* "8 to 12" over all groups, and no 13 between. */
static void first_faults(void)
{
    uint32_t words[2 * 124];
    size_t bytes;
    for (size_t n = 0; n < 2 * 124; n++)
        words[n] = n % 2 ? HIGH_TIME : RESPONSE; /* no items at all */
    plan_is(1, 1, 0, 0);
    bytes = capture_words(words, 2 * 124);
    CHECK(words_of(bytes, 248, 16).number == 0);
    store(capture_bytes, L + 3, 0x052710); /* a micro of 10000 */
    CHECK(is_refused(words_of(bytes, 0, 0), 12, L + 3, 0));
    store(capture_bytes, L, SYNC + 1);
    CHECK(is_refused(words_of(bytes, 0, 0), 9, L, 0));
    plan_is(1, 0, 1, 0);
    bytes = capture_words(words, 200);
    store(capture_bytes, L + 5, 0x2D0000);
    CHECK(is_refused(words_of(bytes, 0, 0), 11, 2 * L - 1, 0));
    plan_is(1, 0, 0, 1);
    bytes = capture_words((uint32_t[]){DATA_1, RESPONSE}, 2);
    CHECK(is_refused(words_of(bytes, 0, 0), 10, 2, 0));
}

/* Words of any number; places are counted in them. */
static void second_half(void)
{
    plan_is(1, 1, 1, 0);
    CHECK(makes(items_of(NULL, 0, 1), "\0", 1));
    CHECK(makes(items_of((uint32_t[]){FILL_ON_0, 0xF1AAAA}, 2, 10), "\0", 1)); /* fill on any bus */
    CHECK(makes(items_of((uint32_t[]){DATA_1}, 1, 4), "\x32\0\0\x80", 4));
    CHECK(is_refused(items_of((uint32_t[]){DATA_1}, 1, 3), 6, 4, 0));
    CHECK(makes(items_of((uint32_t[]){COMMAND_9}, 1, 4), "\x12\0\x02\x40", 4));
    CHECK(is_refused(items_of((uint32_t[]){0x320000}, 1, 9), 13, 0, 0)); /* an unused bus */
    CHECK(is_refused(items_of((uint32_t[]){COMMAND_9, HIGH_TIME, DATA_1}, 3, 9), 13, 2, 0));
    CHECK(is_refused(items_of((uint32_t[]){DATA_1, COMMAND_9, FILL_ON_0, HIGH_TIME}, 4, 9), 13, 1, 1)); /* cut */
    CHECK(is_refused(items_of((uint32_t[]){COMMAND_9, 0x320000}, 2, 9), 13, 1, 1)); /* a command is finished */
    CHECK(is_refused(items_of((uint32_t[]){0x01AAAB}, 1, 9), 13, 0, 0));
    /* A number above 24 bits, in its turn, and never fill. */
    CHECK(is_refused(items_of((uint32_t[]){FILL_ON_0, 0x0101AAAA}, 2, 9), 13, 1, 1));
    CHECK(is_refused(items_of((uint32_t[]){RESPONSE, 0x01000000 | DATA_1}, 2, 9), 13, 1, 0));
    CHECK(is_refused(items_of((uint32_t[]){HIGH_TIME, 0xFFFFFFFF}, 2, 9), 13, 0, 0));
    CHECK(is_refused(items_of((uint32_t[]){0x80000000 | FILL_ON_0}, 1, 9), 13, 0, 0));
    /* K2 */
    CHECK(is_refused(items_of((uint32_t[]){DATA_1, NOTICE_0, 0x54BA00, NOTICE_0}, 4, 0), 15, 1, 0));
    CHECK(is_refused(items_of((uint32_t[]){NOTICE_0, SYLLABLE_0, LOW_0, NOTICE_0}, 4, 0), 15, 3, 0));
    CHECK(is_refused(items_of((uint32_t[]){NOTICE_0, SYLLABLE_0, LOW_0}, 3, 0), 6, 9, 0)); /* 18 and 43 bits and the end mark */
    CHECK(is_refused(items_of((uint32_t[]){NOTICE_0, NOTICE_0, SYLLABLE_0}, 3, 0), 13, 2, 2)); /* the cut item first */
    /* Parity: no notice is taken of bit 1. */
    plan_is(1, 0, 0, 1);
    CHECK(makes(items_of((uint32_t[]){DATA_1}, 1, 9), "\x32\0\0\x80", 4));
    CHECK(makes(items_of((uint32_t[]){DATA_1 | 0x800000}, 1, 9), "\x32\0\0\x80", 4));
    CHECK(makes(items_of((uint32_t[]){0x81AAAA, 0xF1AAAA}, 2, 9), "\0", 1));
    plan_is(1, 0, 0, 0);
    CHECK(is_refused(items_of((uint32_t[]){DATA_1 | 0x800000}, 1, 9), 13, 0, 0)); /* without parity that is bus 10 */
}

/* "8 for more than 349,525 words"; the whole plan is judged. */
static void limits(void)
{
    static uint32_t row[349526];
    uint8_t log[1];
    for (size_t n = 0; n < 349526; n++)
        row[n] = FILL_ON_0;
    plan_is(1, 0, 0, 0);
    CHECK(ind_read_items(L, 1, 0, 0, 0, 3, 0, kinds, 16, row, 349525, log, 1).number == 0);
    CHECK(is_refused(ind_read_items(L, 1, 0, 0, 0, 3, 0, kinds, 16, row, 349526, log, 1), 8, 349526, 0));
    CHECK(is_refused(ind_read_items(127, 1, 0, 0, 0, 3, 0, kinds, 16, row, 349526, log, 1), 1, 0, 0));
    CHECK(is_refused(ind_read_items(L, 1, 0, 0, 0, 8, 0, kinds, 16, row, 1, log, 1), 1, 0, 0));
    CHECK(is_refused(ind_read_items(L, 1, 2, 0, 0, 3, 0, kinds, 16, row, 1, log, 1), 1, 0, 0));
    CHECK(is_refused(ind_read_words(L, 1, 0, 0, 0, 3, 16, kinds, 16, NULL, 0, NULL, 0, NULL, 0), 1, 0, 0));
}

void selftest_split(void)
{
    first_half();
    first_faults();
    second_half();
    limits();
}
