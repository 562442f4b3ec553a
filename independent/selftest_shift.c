/* Document 02, K9, over the independent implementation: tags and frame times moved, by hand, and each refusal in its order. */
#include <string.h>

#include "selftest.h"

#define MOST INT64_C(31622400000000)
#define TOP (TIME_LIMIT - 1)

static uint8_t out[LOG_MAX], row[8 * 4 + 3], lent_row[8 * 4 + 3];
static log_writer writer;

/* The log of a command with a tag, a data word, a status with its response, an ARINC word with a tag, and one without. */
static size_t log_of_times(uint64_t command, uint64_t arinc, uint8_t *log)
{
    item items[] = {{.kind = COMMAND, .bus = 2, .word = 0x0843, .tagged = true, .time = time_split(command)},
                    {.kind = DATA, .bus = 2, .word = 0xBEEF},
                    {.kind = STATUS, .bus = 2, .word = 0x0800, .timed = true, .response = 9999},
                    {.kind = ARINC_WORD, .bus = 5, .channel = 3, .word = 0x12345678, .tagged = true, .time = time_split(arinc)},
                    {.kind = ARINC_WORD, .bus = 5, .word = 0xFFFFFFFF}};
    size_t bytes;
    log_begin(&writer);
    for (size_t n = 0; n < sizeof items / sizeof *items; n++)
        log_put(&writer, &items[n]);
    bytes = log_end(&writer);
    memcpy(log, writer.bytes, bytes);
    return bytes;
}

/* The first bits of the two tagged items. */
enum { FIRST_TAG = 0, SECOND_TAG = 72 + 25 + 40 };

static void row_is(uint64_t a, uint64_t b, uint64_t c, uint64_t d)
{
    uint64_t times[4] = {a, b, c, d};
    memset(row, 0xA5, sizeof row);
    memset(out, 0xA5, sizeof out);
    for (int n = 0; n < 4; n++)
        time_to_bytes(row + 8 * n, times[n]);
    memcpy(lent_row, row, sizeof row);
}

/* So many entries of the row, and three bytes beyond. */
static ind_answer shift(uint64_t command, uint64_t arinc, int64_t by, size_t entries, size_t out_len)
{
    static uint8_t log[64];
    size_t bytes = log_of_times(command, arinc, log);
    return ind_shift(log, bytes, by, row, 8 * entries + 3, out, out_len);
}

static bool moves(uint64_t command, uint64_t arinc, int64_t by, uint64_t new_command, uint64_t new_arinc)
{
    static uint8_t asked[64];
    size_t bytes = log_of_times(new_command, new_arinc, asked);
    ind_answer a;
    row_is(1000000, 1000001, TOP / 2, 7);
    a = shift(command, arinc, by, 0, bytes);
    return a.number == 0 && a.place == 0 && a.second == 0 && a.times == 0 && a.bytes == bytes && memcmp(out, asked, bytes) == 0
           && out[bytes] == 0xA5 && memcmp(row, lent_row, sizeof row) == 0;
}

/* Refused, and nothing written: neither log nor row. */
static bool is_refused(ind_answer a, uint32_t number, uint64_t place)
{
    for (size_t n = 0; n < sizeof out; n++)
        if (out[n] != 0xA5)
            return false;
    return memcmp(row, lent_row, sizeof row) == 0 && a.number == number && a.place == place && a.second == 0 && a.bytes == 0 && a.times == 0;
}

static void tags(void)
{
    CHECK(moves(10005, 0, 0, 10005, 0));
    CHECK(moves(10005, 5, -5, 10000, 0));
    CHECK(moves(10005, 6, -6, 9999, 0)); /* micro is borrowed from low */
    CHECK(moves(UINT64_C(655360000), 1, -1, UINT64_C(655359999), 0)); /* and low from high */
    CHECK(moves(9999, UINT64_C(655359999), 1, 10000, UINT64_C(655360000)));
    CHECK(moves(0, TOP - MOST, MOST, MOST, TOP));
    CHECK(moves(TOP, MOST, -MOST, TOP - MOST, 0));
    CHECK(moves(TOP, TOP, 0, TOP, TOP));
}

static bool row_has(uint64_t a, uint64_t b, uint64_t c, uint64_t d)
{
    return time_from_bytes(row) == a && time_from_bytes(row + 8) == b && time_from_bytes(row + 16) == c
           && time_from_bytes(row + 24) == d && row[32] == 0xA5 && row[33] == 0xA5 && row[34] == 0xA5;
}

static void rows(void)
{
    ind_answer a;
    row_is(10, 9, TOP - 1, UINT64_MAX);
    a = shift(0, 0, 1, 3, sizeof out); /* the fourth entry is not lent */
    CHECK(a.number == 0 && a.times == 3 && row_has(11, 10, TOP, UINT64_MAX));
    row_is(TIME_LIMIT + MOST - 1, MOST, TIME_LIMIT, TOP); /* above the limit, and brought into the range */
    a = shift(MOST, MOST, -MOST, 4, sizeof out);
    CHECK(a.number == 0 && a.times == 4 && row_has(TOP, 0, TIME_LIMIT - MOST, TOP - MOST));
}

static void refusals(void)
{
    static const uint8_t above[6] = {0x23, 0x40, 0x00, 0x27, 0x10, 0x00}, cut[2] = {0x32, 0x5F};
    row_is(0, 5, TIME_LIMIT, UINT64_MAX);
    /* "2, 4 as in composing", also before a shift out of limits */
    CHECK(is_refused(ind_shift(cut, sizeof cut, INT64_MIN, row, 32, out, 0), 2, 0));
    CHECK(is_refused(ind_shift(above, sizeof above, INT64_MAX, row, 32, out, 0), 4, 0));
    CHECK(is_refused(ind_shift(NULL, 0, 0, NULL, 0, out, 0), 2, 0));
    /* the limits, before tags */
    CHECK(is_refused(shift(0, 0, INT64_MIN, 0, sizeof out), 17, 0));
    CHECK(is_refused(shift(0, 0, INT64_MAX, 0, sizeof out), 17, 0));
    CHECK(is_refused(shift(0, 0, MOST + 1, 0, sizeof out), 17, 0));
    CHECK(is_refused(shift(TOP, TOP, -MOST - 1, 0, sizeof out), 17, 0));
    /* tags in order, before frame times */
    CHECK(is_refused(shift(0, TOP, -1, 4, sizeof out), 17, FIRST_TAG));
    CHECK(is_refused(shift(1, 0, -1, 4, sizeof out), 17, SECOND_TAG));
    CHECK(is_refused(shift(0, TOP, 1, 4, sizeof out), 17, SECOND_TAG));
    CHECK(is_refused(shift(0, TOP - MOST + 1, MOST, 4, sizeof out), 17, SECOND_TAG));
    /* frame times in order, before 6 */
    CHECK(is_refused(shift(1, 1, -1, 4, 0), 17, 0));
    CHECK(is_refused(shift(6, 6, -1, 1, 0), 17, 0));
    row_is(1, 5, TIME_LIMIT, UINT64_MAX);
    CHECK(is_refused(shift(2, 2, -2, 4, 0), 17, 0));
    CHECK(is_refused(shift(2, 2, 0, 4, 0), 17, 2)); /* a time that is no time, not moved */
    CHECK(is_refused(shift(2, 2, -1, 4, 0), 17, 3)); /* the third comes into the range, the fourth does not */
    CHECK(is_refused(shift(2, 2, 1, 4, 0), 17, 2));
    row_is(UINT64_MAX, UINT64_MAX, INT64_MAX, UINT64_C(1) << 63);
    CHECK(is_refused(shift(2, 2, 1, 4, 0), 17, 0)); /* the sum would wrap to 0 */
    /* 6 last */
    row_is(1, 5, 6, 7);
    CHECK(is_refused(shift(2, 2, -1, 4, 34), 6, 35));
}

void selftest_shift(void)
{
    tags();
    rows();
    refusals();
}
