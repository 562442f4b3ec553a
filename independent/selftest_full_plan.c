/* Document 02, K5, over the independent implementation: the CRC word's label and the fill bus code, by hand. */
#include <string.h>

#include "selftest.h"

#define L 128
#define DATA_1 0x2D0001u /* bus 2, data A, 0001: five ones, so parity changes nothing */

static uint8_t capture[3 * L * 8], before[3 * L * 8], log_out[64], times_out[16];
static const uint8_t log_of_one[4] = {0x32, 0x00, 0x00, 0x80}; /* that data word */

/* The plan at hand: bus 2 is 1553. */
static uint32_t tracks, frame_time, crc, parity, crc_label, fill_bus;
static uint8_t kinds[16] = {[2] = BUS_1553};

static void plan_is(uint32_t t, uint32_t f, uint32_t c, uint32_t o, uint32_t label, uint32_t code)
{
    tracks = t, frame_time = f, crc = c, parity = o, crc_label = label, fill_bus = code;
}

static ind_answer composed(void)
{
    static const uint8_t time[8] = {0, 0, 0, 0, 0, 0, 0x27, 0x11}; /* 10001 */
    memset(capture, 0xA5, sizeof capture);
    return ind_compose_full(L, tracks, frame_time, crc, parity, crc_label, fill_bus, kinds, 16, log_of_one, sizeof log_of_one, time,
                            frame_time ? 8 : 0, capture, sizeof capture);
}

static ind_answer read_by(ind_answer (*by)(uint32_t, uint32_t, uint32_t, uint32_t, uint32_t, uint32_t, uint32_t, const uint8_t *, size_t,
                                           const uint8_t *, size_t, uint8_t *, size_t, uint8_t *, size_t))
{
    return by(L, tracks, frame_time, crc, parity, crc_label, fill_bus, kinds, 16, capture, 3 * L * (size_t)tracks, log_out,
              sizeof log_out, times_out, sizeof times_out);
}

static bool accepted(ind_answer a)
{
    return a.number == 0 && a.bytes == sizeof log_of_one && memcmp(log_out, log_of_one, sizeof log_of_one) == 0;
}

static bool is_refused(ind_answer a, uint32_t number, uint64_t place)
{
    return a.number == number && a.place == place && a.bytes == 0 && a.times == 0;
}

/* "1 also for a label above 7, a code above 15, or above 7 with parity": whatever the other choices are. */
static void refusals(void)
{
    static const uint32_t numbers[] = {0, 3, 7, 8, 15, 16, 255, 0x80000003, 0xFFFFFFFF};
    for (uint32_t choices = 0; choices < 8; choices++)
        for (size_t n = 0; n < 9; n++)
            for (size_t m = 0; m < 9; m++) {
                uint32_t label = numbers[n], code = numbers[m];
                bool legal = label <= 7 && code <= (choices & 4 ? 7 : 15);
                plan_is(1, choices & 1, choices >> 1 & 1, choices >> 2, label, code);
                CHECK(composed().number == (legal ? 0 : 1));
                CHECK(read_by(ind_read_full).number == (legal ? 0 : 1));
                CHECK(read_by(ind_read_closed_full).number == (legal ? 0 : 1));
            }
}

/* Bit 1 of fill with parity, by its code: 1, 2, 4 and 7 have an odd number of ones, and with fill's nine that is even. */
static void fill_words(void)
{
    static const uint32_t with_parity[8] = {0x01AAAA, 0x91AAAA, 0xA1AAAA, 0x31AAAA, 0xC1AAAA, 0x51AAAA, 0x61AAAA, 0xF1AAAA};
    for (uint32_t code = 0; code < 16; code++)
        for (uint32_t t = 1; t <= 4; t++)
            for (uint32_t o = 0; o < (code < 8 ? 2u : 1u); o++) {
                plan_is(t, 0, 0, o, 3, code);
                CHECK(composed().bytes == 3 * L * t);
                for (uint64_t place = 0; place < L * t; place++)
                    CHECK(stored(capture, place) == (place % L == 0 ? SYNC : place == 1 ? DATA_1
                                                                       : o ? with_parity[code] : code << 20 | 0x1AAAA));
                CHECK(accepted(read_by(ind_read_full)) && accepted(read_by(ind_read_closed_full)));
                fill_bus = (code + 1) % 8; /* read by another code: "judged against the plan's code" */
                CHECK(accepted(read_by(ind_read_full)));
                CHECK(is_refused(read_by(ind_read_closed_full), 14, t == 1 ? 2 : L + 1));
            }
}

/* "Frame time words stay on bus 0"; the CRC word gains only a label, and all 24 bits are compared. */
static void labels(void)
{
    for (uint32_t label = 0; label < 8; label++)
        for (uint32_t o = 0; o < 2; o++) {
            plan_is(1, 1, 1, o, label, 5);
            CHECK(composed().bytes == 3 * L);
            CHECK((stored(capture, L - 1) & 0x7F0000) == label << 16);
            CHECK((stored(capture, 1) & 0x7FFFFF) == 0x070000 && (stored(capture, 2) & 0x7FFFFF) == 0x060001);
            CHECK((stored(capture, 3) & 0x7FFFFF) == 0x050001);
            CHECK(accepted(read_by(ind_read_closed_full)));
            crc_label = (label + 1) % 8;
            CHECK(is_refused(read_by(ind_read_full), 11, L - 1));
        }
}

/* Label 3 and code 0 are what was before. */
static void as_before(void)
{
    for (uint32_t choices = 0; choices < 8; choices++) {
        plan_is(1 + choices / 2, choices & 1, choices >> 1 & 1, choices >> 2, 3, 0);
        CHECK(composed().number == 0);
        memcpy(before, capture, sizeof capture);
        memset(capture, 0xA5, sizeof capture);
        CHECK(ind_compose(L, tracks, frame_time, crc, parity, kinds, 16, log_of_one, sizeof log_of_one, (const uint8_t *)"\0\0\0\0\0\0\x27\x11",
                          frame_time ? 8 : 0, capture, sizeof capture).number == 0);
        CHECK(memcmp(before, capture, sizeof capture) == 0);
    }
}

/* A CRC word of label 1 whose remainder is AAAA reads as fill, and is none: it stands in no data slot. Data, and behind it a word of
 * any information, so that all slots hold data. */
static void crc_word_as_fill(void)
{
    plan p;
    size_t group = 3 * L;
    plan_is(1, 0, 1, 0, 1, 0);
    CHECK(plan_of(&p, L, tracks, frame_time, crc, parity, crc_label, fill_bus, kinds, 16));
    for (uint32_t n = 1; n < L; n++)
        store(capture, n, DATA_1);
    store(capture, 0, SYNC);
    for (uint32_t information = 0; information < 0x10000; information++) {
        store(capture, L - 2, 0x2D0000 | information);
        store(capture, L - 1, crc_word(&p, capture));
        if (stored(capture, L - 1) == 0x01AAAA)
            break;
    }
    CHECK(stored(capture, L - 1) == 0x01AAAA);
    memcpy(capture + group, capture, group);
    for (uint64_t groups = 1; groups <= 2; groups++) {
        static uint8_t back[1024];
        ind_answer a = ind_read_closed_full(L, 1, 0, 1, 0, 1, 0, kinds, 16, capture, groups * group, back, sizeof back, NULL, 0);
        CHECK(a.number == 0 && a.bytes == (groups * (L - 2) * 25 + 4 + 7) / 8);
    }
    store(capture, L - 2, stored(capture, L - 2) ^ 1); /* now it is the wrong remainder, and no fill either */
    CHECK(is_refused(read_by(ind_read_full), 11, L - 1));
}

void selftest_full_plan(void)
{
    refusals();
    fill_words();
    labels();
    as_before();
    crc_word_as_fill();
}
