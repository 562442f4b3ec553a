/* Document 01's bench cases P1 to P10 and its list "Tempting and wrong", over the independent implementation. */
#include <string.h>

#include "selftest.h"

/* The plan and the runs of the case at hand. */
static uint32_t length, tracks, frame_time, crc, parity;
static uint8_t kinds[16];
static uint8_t log_in[LOG_MAX + 1], times_in[8 * 64], capture[CAPTURE_MAX], log_out[LOG_MAX], times_out[8 * 64];
static log_writer writer;

static void plan_is(uint32_t l, uint32_t t, uint32_t f, uint32_t c, uint32_t o)
{
    length = l, tracks = t, frame_time = f, crc = c, parity = o;
    memset(kinds, 0, sizeof kinds);
}

static ind_answer composed(size_t log_len, size_t times)
{
    return ind_compose(length, tracks, frame_time, crc, parity, kinds, 16, log_in, log_len, times_in, 8 * times,
                       capture, sizeof capture);
}

static ind_answer read_plain(size_t capture_len)
{
    return ind_read(length, tracks, frame_time, crc, parity, kinds, 16, capture, capture_len,
                    log_out, sizeof log_out, times_out, sizeof times_out);
}

static ind_answer read_closed(size_t capture_len)
{
    return ind_read_closed(length, tracks, frame_time, crc, parity, kinds, 16, capture, capture_len,
                           log_out, sizeof log_out, times_out, sizeof times_out);
}

static bool answers(ind_answer a, uint32_t number, uint64_t place, uint64_t bytes, uint64_t times)
{
    return a.number == number && a.place == place && a.second == 0 && a.bytes == bytes && a.times == times;
}

/* K8: 13, at a word, and the first word of the item that broke. */
static bool breaks(ind_answer a, uint64_t place, uint64_t first_word)
{
    return a.number == 13 && a.place == place && a.second == first_word && a.bytes == 0 && a.times == 0;
}

/* A capture of one track, of fill, to put words into. */
static size_t frames_of_fill(uint64_t frames)
{
    for (uint64_t index = 0; index < frames * length; index++)
        store(capture, index, index % length == 0 ? SYNC : 0x01AAAA);
    return 3 * frames * length;
}

/* A log of so many data words on a bus. */
static size_t log_of_data(uint32_t bus, uint32_t items)
{
    size_t bytes;
    log_begin(&writer);
    for (uint32_t n = 0; n < items; n++) {
        item i = {.kind = DATA, .bus = bus, .word = n};
        log_put(&writer, &i);
    }
    bytes = log_end(&writer);
    memcpy(log_in, writer.bytes, bytes);
    return bytes;
}

static size_t log_of(const item *items, size_t count)
{
    size_t bytes;
    log_begin(&writer);
    for (size_t n = 0; n < count; n++)
        log_put(&writer, &items[n]);
    bytes = log_end(&writer);
    memcpy(log_in, writer.bytes, bytes);
    return bytes;
}

/* Whether the lister's text of a log is this one, byte for byte. */
static bool lists(const uint8_t *log, size_t log_len, const char *text)
{
    static char listed[IND_TEXT_MAX];
    size_t size = ind_list(log, log_len, listed, sizeof listed);
    return size == strlen(text) && memcmp(listed, text, size) == 0;
}

static void p1_p2(void)
{
    static const uint8_t log[13] = {0x12, 0x42, 0x10, 0xC0, 0, 0, 0, 0x40, 0x05, 0x32, 0x5F, 0x77, 0x80};
    static const uint32_t plain[5] = {0x2F0843, 0x270000, 0x260001, 0x250005, 0x2DBEEF};
    static const uint32_t with_parity[5] = {0x2F0843, 0xA70000, 0xA60001, 0x250005, 0x2DBEEF};

    CHECK(lists(log, sizeof log, "cmd 2 A 0843 at 10005\ndat 2 A BEEF\nend 2\n"));
    memcpy(log_in, log, sizeof log);
    for (parity = 0; parity <= 1; parity++) {
        plan_is(129, 1, 0, 0, parity);
        kinds[2] = BUS_1553;
        CHECK(answers(composed(sizeof log, 0), 0, 0, 387, 0));
        CHECK(stored(capture, 0) == SYNC);
        for (int n = 0; n < 5; n++)
            CHECK(stored(capture, 1 + n) == (parity ? with_parity : plain)[n]);
        for (int n = 6; n < 129; n++)
            CHECK(stored(capture, n) == 0x01AAAA); /* P4 */
        CHECK(answers(read_closed(387), 0, 0, sizeof log, 0));
        CHECK(memcmp(log_out, log, sizeof log) == 0);
    }
}

static void p3(void)
{
    plan_is(129, 1, 1, 1, 1);
    log_in[0] = 0;
    CHECK(answers(composed(1, 0), 0, 0, 0, 0));
    CHECK(answers(read_plain(0), 0, 0, 1, 0) && log_out[0] == 0);
    CHECK(answers(read_closed(0), 0, 0, 1, 0) && log_out[0] == 0);
    CHECK(answers(composed(0, 0), 2, 0, 0, 0)); /* decision 5 */
}

static void p5(void)
{
    item notice = {.kind = NOTICE, .bus = 5, .channel = 2};
    item both[2] = {notice, {.kind = ARINC_WORD, .bus = 5, .channel = 2}};
    plan_is(129, 1, 0, 0, 0);
    kinds[5] = BUS_ARINC;
    CHECK(answers(composed(log_of(&notice, 1), 0), 15, 0, 0, 0)); /* K2: no word behind it */
    CHECK(composed(log_of(both, 2), 0).number == 0);
    CHECK(stored(capture, 1) == 0x54DC00);
}

static void p6(void)
{
    plan_is(129, 1, 1, 1, 0);
    kinds[2] = BUS_1553;
    CHECK(answers(composed(log_of_data(2, 124), 1), 0, 0, 387, 0));
    CHECK(answers(composed(log_of_data(2, 125), 2), 0, 0, 774, 0));
    CHECK(answers(composed(log_of_data(2, 125), 1), 5, 2, 0, 0));
}

static void p7_p8(void)
{
    item data = {.kind = DATA, .bus = 2, .word = 0xBEEF};
    plan_is(129, 4, 1, 1, 0);
    kinds[2] = BUS_1553;
    CHECK(answers(composed(log_of_data(2, 505), 1), 0, 0, 4 * 387, 0));
    CHECK(answers(composed(log_of_data(2, 506), 1), 5, 2, 0, 0));
    CHECK(composed(log_of(&data, 1), 1).number == 0);
    CHECK(stored(capture, 3 * 129 + 1) == 0x2DBEEF);
    plan_is(129, 2, 1, 0, 0);
    kinds[2] = BUS_1553;
    CHECK(composed(log_of(&data, 1), 1).number == 0);
    CHECK(stored(capture, 129 + 2) == 0x2DBEEF);
}

static void p9(void)
{
    time_words top = {0xFFFF, 0xFFFF, 9999};
    item command = {.kind = COMMAND, .bus = 2, .tagged = true, .time = top};
    size_t bytes = log_of(&command, 1);
    CHECK(time_join(top) == UINT64_C(42949672959999));
    CHECK(lists(log_in, bytes, "cmd 2 A 0000 at 42949672959999\nend 1\n"));
    plan_is(129, 1, 0, 0, 0);
    kinds[2] = BUS_1553;
    CHECK(answers(composed(bytes, 0), 0, 0, 387, 0));
    command.time.micro = 10000;
    bytes = log_of(&command, 1);
    CHECK(answers(composed(bytes, 0), 4, 0, 0, 0));
    CHECK(lists(log_in, bytes, "refused 4 at 0\n"));
}

static void p10(void)
{
    for (uint32_t l = 0; l < 600; l++) {
        plan_is(l, 1, 0, 0, 0);
        log_in[0] = 0;
        CHECK(composed(1, 0).number == (l >= 128 && l <= 512 ? 0 : 1));
    }
}

/* "High 1 on a bus, then low 2, or low 1 on another bus: 13." and "keeping a half-read item when another bus's word comes" */
static void halves(void)
{
    plan_is(129, 1, 0, 0, 0);
    kinds[5] = kinds[6] = BUS_ARINC;
    frames_of_fill(1);
    store(capture, 1, 0x591234);
    store(capture, 2, 0x5A5678);
    CHECK(breaks(read_plain(387), 2, 1));
    store(capture, 2, 0x685678);
    CHECK(breaks(read_plain(387), 2, 1));
    store(capture, 3, 0x585678); /* its own low syllable behind another bus's word comes too late */
    store(capture, 2, 0x600000);
    CHECK(breaks(read_plain(387), 2, 1));
    store(capture, 2, 0x585678);
    store(capture, 3, 0x01AAAA);
    CHECK(answers(read_plain(387), 0, 0, 6, 0));
    store(capture, 2, 0x01AAAA);
    CHECK(breaks(read_plain(387), 1, 1)); /* cut at the end: its first word */
}

/* K8: a command, and an ARINC word after its low syllable, are finished; from the high time word on they are not. */
static void which_item_broke(void)
{
    static const struct {
        uint32_t words[4];
        uint64_t place, first_word;
    } rows[] = {
        {{0x2F0001, 0x7D0000, 0x01AAAA, 0x01AAAA}, 2, 2},
        {{0x2F0001, 0x270000, 0x2D0000, 0x01AAAA}, 3, 1},
        {{0x2D0001, 0x2F0001, 0x270000, 0x2D0000}, 4, 2},
        {{0x591234, 0x585678, 0x5A0000, 0x01AAAA}, 3, 3},
        {{0x591234, 0x585678, 0x570000, 0x5A0000}, 4, 1},
        {{0x2F0001, 0x270000, 0x260000, 0x252710}, 4, 1},
        {{0x240001, 0x01AAAA, 0x01AAAA, 0x2D0000}, 4, 1},
        {{0x2D0000, 0x242710, 0x01AAAA, 0x01AAAA}, 2, 2},
        {{0x2D0000, 0x2F0001, 0x270000, 0x01AAAA}, 2, 2},
    };
    plan_is(129, 1, 0, 0, 0);
    kinds[2] = BUS_1553;
    kinds[5] = BUS_ARINC;
    for (size_t n = 0; n < sizeof rows / sizeof *rows; n++) {
        frames_of_fill(1);
        for (uint64_t place = 1; place <= 4; place++)
            store(capture, place, rows[n].words[place - 1]);
        CHECK(breaks(read_plain(387), rows[n].place, rows[n].first_word));
        CHECK(breaks(read_closed(387), rows[n].place, rows[n].first_word));
    }
    for (tracks = 2; tracks <= 4; tracks++) { /* user words, then a high syllable on the last track, and another on the first */
        uint64_t last = 129 * (uint64_t)(tracks - 1) + 1;
        kinds[2] = UNUSED;
        frames_of_fill(tracks);
        for (uint64_t track = 0; track < tracks; track++)
            store(capture, 129 * track + 1, track + 1 < tracks ? 0x520000 : 0x591234);
        store(capture, 2, 0x591234);
        CHECK(breaks(read_plain(387 * (size_t)tracks), 2, last));
        store(capture, 2, 0x01AAAA);
        CHECK(breaks(read_plain(387 * (size_t)tracks), last, last));
    }
}

/* "hunting for FAF320 inside a frame (status B on bus code 15 with F320 is that word, and its parity is odd)" */
static void sync_inside(void)
{
    item status = {.kind = STATUS, .bus = 15, .b = 1, .word = 0xF320};
    size_t bytes = log_of(&status, 1);
    plan_is(129, 1, 0, 0, 0);
    kinds[15] = BUS_1553;
    CHECK(odd(SYNC));
    CHECK(answers(composed(bytes, 0), 0, 0, 387, 0));
    CHECK(stored(capture, 1) == SYNC);
    CHECK(answers(read_closed(387), 0, 0, bytes, 0));
    CHECK(memcmp(log_in, log_out, bytes) == 0);
}

/* "dealing the CRC word round the tracks": every track ends with its own */
static void crc_ends_each_track(void)
{
    plan_is(129, 4, 0, 1, 0);
    kinds[2] = BUS_1553;
    CHECK(composed(log_of_data(2, 508), 0).bytes == 4 * 387);
    for (uint64_t track = 0; track < 4; track++) {
        CHECK(stored(capture, 129 * track + 128) >> 16 == 0x03);
        CHECK(stored(capture, 129 * track + 127) == (0x2D0000 | (504 + (uint32_t)track)));
        store(capture, 129 * track + 128, stored(capture, 129 * track + 128) ^ 1);
        CHECK(answers(read_plain(4 * 387), 11, 129 * track + 128, 0, 0));
        store(capture, 129 * track + 128, stored(capture, 129 * track + 128) ^ 1);
    }
}

/* "ending an item at a frame edge": an ARINC word and its tag over the edge of a group, with frame time and CRC between */
static void over_the_edge(void)
{
    item items[2] = {{.kind = OVERFLOW_MARK, .bus = 5, .word = 1},
                     {.kind = ARINC_WORD, .bus = 5, .channel = 3, .word = 0x12345678, .tagged = true, .time = {1, 2, 3}}};
    item many[125];
    size_t bytes;
    for (uint32_t before = 119; before <= 124; before++) {
        plan_is(129, 1, 1, 1, 1);
        kinds[5] = BUS_ARINC;
        for (uint32_t n = 0; n < before; n++)
            many[n] = items[0];
        many[before] = items[1];
        bytes = log_of(many, before + 1);
        CHECK(composed(bytes, before == 119 ? 1 : 2).number == 0);
        CHECK(read_closed(before == 119 ? 387 : 774).bytes == bytes);
        CHECK(memcmp(log_in, log_out, bytes) == 0);
    }
}

/* "reading a CRC word as a user word": bus 0 is used and label 3 is a user word, but not in the last place with CRC */
static void crc_is_no_user_word(void)
{
    item data = {.kind = DATA, .bus = 0, .word = 7};
    size_t bytes = log_of(&data, 1);
    plan_is(129, 1, 0, 1, 0);
    kinds[0] = BUS_1553;
    CHECK(composed(bytes, 0).number == 0);
    CHECK(answers(read_closed(387), 0, 0, bytes, 0));
    CHECK(memcmp(log_in, log_out, bytes) == 0);
    crc = 0; /* the same bytes by a plan without CRC: there it is a user word */
    CHECK(answers(read_plain(387), 0, 0, bytes + 3, 0));
    CHECK(answers(read_closed(387), 14, 2, 0, 0));
}

/* docs/DECISIONS.md: "the remainder of the nine ASCII bytes 123456789 is FEE8, and of the sync word FAF320 alone 2684" */
static void crc_by_hand(void)
{
    plan p = {.length = 4, .crc_label = CRC_LABEL_BEFORE};
    uint8_t frame[12] = "123456789";
    CHECK(crc_word(&p, frame) == 0x03FEE8);
    p.length = 2;
    store(frame, 0, SYNC);
    CHECK(crc_word(&p, frame) == 0x032684);
}

/* A line of each form, and "only `refused N at P`" */
static void lister_lines(void)
{
    item items[] = {{.kind = COMMAND, .bus = 15, .b = 1, .word = 0xABCD},
                    {.kind = STATUS, .bus = 0, .word = 0x000F, .timed = true, .response = 9999},
                    {.kind = STATUS, .bus = 1, .b = 1, .word = 0xFFFF},
                    {.kind = BUS_ERROR, .bus = 9, .word = 0x0010},
                    {.kind = ARINC_WORD, .bus = 5, .channel = 3, .word = 0x0000BEEF},
                    {.kind = ARINC_WORD, .bus = 5, .channel = 0, .word = 0xDEADBEEF, .tagged = true, .time = {0, 1, 2}},
                    {.kind = NOTICE, .bus = 5, .channel = 2, .word = 0x0A},
                    {.kind = USER, .bus = 7, .label3 = 1, .word = 1},
                    {.kind = USER, .bus = 7, .word = 2},
                    {.kind = OVERFLOW_MARK, .bus = 10, .word = 0x00FF}};
    static const char listed[] = "cmd 15 B ABCD\nsta 0 A 000F resp 9999\nsta 1 B FFFF\nerr 9 A 0010\narn 5 4 0000BEEF\n"
                                 "arn 5 1 DEADBEEF at 10002\nare 5 3 0A\nusr 7 3 0001\nusr 7 2 0002\novf 10 00FF\nend 10\n";
    size_t bytes = log_of(items, sizeof items / sizeof *items);
    CHECK(lists(log_in, bytes, listed));
    CHECK(lists(log_in, bytes - 1, "refused 2 at 341\n"));
    CHECK(lists(log_in, 0, "refused 2 at 0\n"));
    CHECK(lists(log_in, 32769, "refused 2 at 0\n"));
}

int main(void)
{
    p1_p2();
    p3();
    p5();
    p6();
    p7_p8();
    p9();
    p10();
    halves();
    which_item_broke();
    sync_inside();
    crc_ends_each_track();
    over_the_edge();
    crc_is_no_user_word();
    crc_by_hand();
    lister_lines();
    puts("selftest: P1 to P10 and the list of tempting and wrong: as document 01 says");
    selftest_pick_join();
    selftest_profile();
    selftest_replay();
    puts("selftest: K7, K11, K13: as document 02 says");
    selftest_shift();
    selftest_full_plan();
    selftest_split();
    selftest_salvage();
    selftest_stream();
    puts("selftest: K9, K5, K8, K3, K10, K4: as document 02 says");
    return 0;
}
