/* Document 02, K7, over the independent implementation: what is picked and joined, by hand, and each refusal in its order. */
#include <string.h>

#include "selftest.h"

/* P1's log: a tagged command and a data word, both on bus 2. */
static const uint8_t p1[13] = {0x12, 0x42, 0x10, 0xC0, 0, 0, 0, 0x40, 0x05, 0x32, 0x5F, 0x77, 0x80};
static const uint8_t empty[1] = {0};
/* An overflow mark (24 bits), a data word on bus 2 (25), a notice on bus 5 (18), the end mark: 71 bits. */
static const uint8_t mixed[9] = {0x81, 0x12, 0x34, 0x32, 0x5F, 0x77, 0xB2, 0xC0, 0x80};
/* A status on bus 3 whose response is 10000; a log that ends inside its item; a kind that is none; a bad ending. */
static const uint8_t above[6] = {0x23, 0x40, 0x00, 0x27, 0x10, 0x00}, cut[2] = {0x32, 0x5F}, unknown[1] = {0x90}, ending[2] = {0, 0};

static uint8_t out[LOG_MAX], longest[LOG_MAX + 1];

static bool picks(const uint8_t *log, size_t log_len, uint16_t buses, const uint8_t *made, size_t made_len)
{
    ind_answer a;
    memset(out, 0xA5, sizeof out);
    a = ind_pick(log, log_len, buses, out, made_len);
    return a.number == 0 && a.place == 0 && a.second == 0 && a.times == 0 && a.bytes == made_len
           && memcmp(out, made, made_len) == 0 && out[made_len] == 0xA5;
}

static bool joins(const uint8_t *first, size_t first_len, const uint8_t *second, size_t second_len, const uint8_t *made, size_t made_len)
{
    ind_answer a;
    memset(out, 0xA5, sizeof out);
    a = ind_join(first, first_len, second, second_len, out, made_len);
    return a.number == 0 && a.place == 0 && a.second == 0 && a.times == 0 && a.bytes == made_len
           && memcmp(out, made, made_len) == 0 && out[made_len] == 0xA5;
}

/* Refused, and nothing written. */
static bool is_refused(ind_answer a, uint32_t number, uint64_t place)
{
    for (size_t n = 0; n < sizeof out; n++)
        if (out[n] != 0xA5)
            return false;
    return a.number == number && a.place == place && a.second == 0 && a.bytes == 0 && a.times == 0;
}

static void picked(void)
{
    static const uint8_t data[4] = {0x32, 0x5F, 0x77, 0x80}, mark[4] = {0x81, 0x12, 0x34, 0x00}, notice[3] = {0x65, 0x81, 0x00};
    /* The mark and the notice: 42 bits and the end mark. */
    static const uint8_t around[6] = {0x81, 0x12, 0x34, 0x65, 0x81, 0x00};
    CHECK(picks(p1, sizeof p1, 1 << 2, p1, sizeof p1));
    CHECK(picks(p1, sizeof p1, 0xFFFF, p1, sizeof p1));
    CHECK(picks(p1, sizeof p1, (uint16_t)~(1 << 2), empty, 1));
    CHECK(picks(mixed, sizeof mixed, 0xFFFF, mixed, sizeof mixed));
    CHECK(picks(mixed, sizeof mixed, 0, empty, 1));
    CHECK(picks(mixed, sizeof mixed, 1 << 1, mark, sizeof mark));
    CHECK(picks(mixed, sizeof mixed, 1 << 2, data, sizeof data));
    CHECK(picks(mixed, sizeof mixed, 1 << 5, notice, sizeof notice));
    CHECK(picks(mixed, sizeof mixed, 1 << 5 | 1 << 1 | 1 << 15, around, sizeof around));
    CHECK(picks(empty, 1, 0xFFFF, empty, 1));
}

static void joined(void)
{
    /* P1's items, 97 bits, twice. */
    static const uint8_t twice[25] = {0x12, 0x42, 0x10, 0xC0, 0,    0,    0,    0x40, 0x05, 0x32, 0x5F, 0x77, 0x89,
                                      0x21, 0x08, 0x60, 0,    0,    0,    0x20, 0x02, 0x99, 0x2F, 0xBB, 0xC0};
    CHECK(joins(p1, sizeof p1, p1, sizeof p1, twice, sizeof twice));
    CHECK(joins(p1, sizeof p1, empty, 1, p1, sizeof p1));
    CHECK(joins(empty, 1, p1, sizeof p1, p1, sizeof p1));
    CHECK(joins(empty, 1, empty, 1, empty, 1));
}

static void refusals(void)
{
    memset(out, 0xA5, sizeof out);
    CHECK(is_refused(ind_pick(NULL, 0, 0, out, sizeof out), 2, 0));
    CHECK(is_refused(ind_pick(longest, sizeof longest, 0, out, sizeof out), 2, 0));
    CHECK(is_refused(ind_pick(cut, sizeof cut, 0, out, sizeof out), 2, 0));
    CHECK(is_refused(ind_pick(unknown, sizeof unknown, 0, out, sizeof out), 2, 0));
    CHECK(is_refused(ind_pick(ending, sizeof ending, 0, out, sizeof out), 2, 0));
    CHECK(is_refused(ind_pick(p1, sizeof p1 - 1, 0, out, 0), 2, 72)); /* before 6; also of an item that is not picked */
    CHECK(is_refused(ind_pick(above, sizeof above, 0, out, 0), 4, 0));
    CHECK(is_refused(ind_pick(p1, sizeof p1, 1 << 2, out, 12), 6, 13));
    CHECK(is_refused(ind_pick(p1, sizeof p1, 0, out, 0), 6, 1)); /* the end mark counts */
    CHECK(is_refused(ind_join(cut, sizeof cut, p1, sizeof p1, out, sizeof out), 2, 0));
    CHECK(is_refused(ind_join(p1, sizeof p1, above, sizeof above, out, sizeof out), 4, 0));
    CHECK(is_refused(ind_join(empty, 1, p1, sizeof p1 - 1, out, sizeof out), 2, 72));
    CHECK(is_refused(ind_join(above, sizeof above, p1, sizeof p1 - 1, out, 0), 4, 0)); /* the first log's 4 before the second's 2 */
    CHECK(is_refused(ind_join(p1, sizeof p1 - 1, above, sizeof above, out, 0), 2, 72));
    CHECK(is_refused(ind_join(p1, sizeof p1, p1, sizeof p1, out, 24), 6, 25));
    CHECK(is_refused(ind_join(longest, sizeof longest, empty, 1, out, sizeof out), 2, 0));
}

/* Overflow marks, 24 bits each: 10,922 of them and the end mark have 32,767 bytes, one more has 32,770. */
static void longest_log(void)
{
    static const uint8_t mark[4] = {0x80, 0, 0, 0};
    static uint8_t marks[3 * 10922 + 1], all[3 * 10922 + 1];
    for (size_t n = 0; n < 10922; n++)
        marks[3 * n] = 0x80;
    memcpy(all, marks, sizeof all);
    memset(out, 0xA5, sizeof out);
    CHECK(is_refused(ind_join(marks, sizeof marks, mark, sizeof mark, out, sizeof out), 6, 32770)); /* whatever is lent */
    CHECK(joins(marks, sizeof marks, empty, 1, all, sizeof all));
    CHECK(picks(marks, sizeof marks, 1, all, sizeof all));
}

void selftest_pick_join(void)
{
    picked();
    joined();
    refusals();
    longest_log();
}
