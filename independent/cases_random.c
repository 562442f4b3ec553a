/* Ten blocks of 200 pseudo-random cases: composed and read back, composed and damaged, and noise. Every answer and every lent byte
 * goes into the block's digest. */
#include "cases.h"

/* "minimal standard" generator: 1 to 2147483646, and no product reaches 48 bits */
static uint64_t state = 20241001;

/* No expression draws twice, so the order of the draws is the order of the lines. */
static uint32_t draw(uint32_t below)
{
    state = state * 48271 % 2147483647;
    return (uint32_t)(state % below);
}

static int one_in(uint32_t n)
{
    return draw(n) == 0;
}

/* One in so many, where faults are asked for. */
static int faulty(uint32_t faults, uint32_t n)
{
    return faults == 1 && one_in(n);
}

/* ==== Plans ==== */

static uint32_t draw_words(void)
{
    uint32_t shape = draw(4);
    if (shape == 0)
        return 128;
    if (shape == 1)
        return 512;
    return 128 + draw(385);
}

/* K5: a label and a fill bus code; of a third of the plans the usual ones, by the functions that take none. */
static plan_numbers draw_label(plan_numbers p, uint32_t buses)
{
    uint32_t crc_label, fill_bus;
    if (one_in(3))
        return p;
    crc_label = draw(8);
    fill_bus = draw(buses);
    return with_label(p, crc_label, fill_bus);
}

/* A legal plan. */
static plan_numbers draw_plan(void)
{
    plan_numbers p = plan(129, 1, 0, 0, 0);
    uint32_t buses;
    p.words = draw_words();
    p.tracks = 1 + draw(4);
    p.frame_time = draw(2);
    p.crc = draw(2);
    p.parity = draw(2);
    buses = p.parity == 1 ? 8 : 16;
    p = draw_label(p, buses);
    if (p.tracks > 1) {
        uint32_t bus = draw(buses);
        p.kinds[bus] = (uint8_t)(1 + draw(2));
    } else {
        for (uint32_t bus = 0; bus < buses; bus++)
            p.kinds[bus] = (uint8_t)draw(3);
    }
    return p;
}

/* Now and then a number that makes it illegal, or another legal plan. */
static plan_numbers spoil_plan(plan_numbers p)
{
    uint32_t what = draw(10), bus = draw(16);
    if (what == 0)
        p.words = draw(700);
    if (what == 1)
        p.tracks = draw(7);
    if (what == 2)
        p.frame_time = draw(4);
    if (what == 3)
        p.crc = draw(4);
    if (what == 4)
        p.parity = draw(4);
    if (what == 5)
        p.kinds[bus] = (uint8_t)draw(5);
    if (what == 6)
        p.kinds_len = draw(17);
    if (what == 7)
        p = with_label(p, draw(12), p.fill_bus);
    if (what == 8)
        p = with_label(p, p.crc_label, draw(20));
    return p;
}

/* The first used bus from a drawn one on, bus 0 behind bus 15; 16 if no bus is used. */
static uint32_t draw_bus(plan_numbers p)
{
    uint32_t first = draw(16);
    for (uint32_t n = 0; n < 16; n++)
        if (p.kinds[(first + n) % 16] != 0)
            return (first + n) % 16;
    return 16;
}

/* ==== Logs ==== */

/* The bits of an item's fields behind its bus, up to its word, its diagnostics or its information. */
static uint32_t fields_width(uint32_t kind)
{
    static const uint32_t widths[16] = {0, 18, 18, 17, 17, 35, 10, 17, 16};
    return widths[kind];
}

/* The bits of a tag or a response. */
static uint32_t tail_width(uint32_t kind, uint32_t flag)
{
    if (flag == 0)
        return 0;
    return kind == 1 || kind == 5 ? 46 : kind == 2 ? 14 : 0;
}

/* K2: an error notice wants its word. Mostly one stands right behind it. */
static uint32_t draw_answer(uint32_t bit, uint32_t bus, uint32_t channel)
{
    uint64_t fields;
    if (one_in(16))
        return bit;
    fields = 2 * channel;
    fields = 65536 * fields + draw(65536);
    fields = 65536 * fields + draw(65536);
    return put(put(put(bit, 4, 5), 4, bus), 35, fields);
}

/* An item of the bus's kind; with faults, now and then of another. The flag says "tagged" or "timed"; it stands before a word of 16
 * bits, and before one of 32. A tag's last 14 bits are a response. */
static uint32_t draw_item(uint32_t bit, uint32_t bus, uint32_t bus_kind, uint32_t faults)
{
    static const uint32_t kinds[2][8] = {{1, 1, 2, 2, 3, 4, 7, 8}, {5, 5, 5, 5, 6, 6, 7, 8}};
    uint64_t fields, tail;
    uint32_t kind, flag;
    if (faulty(faults, 100))
        kind = draw(16);
    else {
        uint32_t n = draw(8);
        kind = bus_kind < 4 ? kinds[bus_kind / 2][n] : 8;
    }
    if (faulty(faults, 100))
        bus = draw(16);
    flag = draw(2);
    fields = 2 * draw(4) + flag;
    fields = 65536 * fields + 2 * draw(32768) + flag;
    fields = 65536 * fields + draw(65536);
    tail = draw(65536);
    tail = 65536 * tail + draw(65536);
    tail = 16384 * tail + (faulty(faults, 100) ? draw(16384) : draw(10000));
    bit = put(put(bit, 4, kind), 4, bus);
    bit = put(bit, fields_width(kind), fields);
    bit = put(bit, tail_width(kind, flag), tail);
    return kind == 6 ? draw_answer(bit, bus, (uint32_t)(fields >> 8 & 3)) : bit;
}

/* A byte less, a byte more, or a byte changed. */
static uint32_t spoil_log(uint32_t length)
{
    uint32_t what = draw(3), at, byte;
    if (what == 0)
        return length - 1;
    if (what == 1) {
        log_in[length] = 0;
        return length + 1;
    }
    at = draw(length);
    byte = draw(256);
    log_in[at] = (uint8_t)byte;
    return length;
}

/* A log of up to 60 items, or of up to 600, or of none; returns its length in bytes. */
static uint32_t draw_log(plan_numbers p, uint32_t faults)
{
    uint32_t shape = draw(16), bit = 0, length;
    uint32_t items = shape == 0 ? draw(600) : shape == 1 ? 0 : draw(60);
    for (uint32_t n = 0; n < items; n++) {
        uint32_t bus = draw_bus(p);
        if (bus < 16)
            bit = draw_item(bit, bus, p.kinds[bus], faults);
    }
    length = put_end(bit);
    if (faulty(faults, 4))
        length = spoil_log(length);
    return length;
}

static void draw_times(uint32_t times, uint32_t faults)
{
    for (uint32_t n = 0; n < times; n++) {
        uint64_t high = draw(65536), low = draw(65536), micro = draw(10000);
        if (faulty(faults, 20))
            put_time(n, 42949672950000 + 2 * micro); /* about the limit */
        else
            put_time(n, 10000 * (65536 * high + low) + micro);
    }
}

/* ==== Captures ==== */

/* A word that is often lawful on a used bus, or the plan's fill. */
static uint32_t draw_word(plan_numbers p)
{
    uint32_t bus = draw_bus(p), label = draw(16), information = draw(65536), shape = draw(4), bits;
    if (shape == 0)
        information = 0xAAAA;
    if (shape == 1)
        information = information % 12000;
    bits = bus % 16 * 1048576 + label * 65536 + information;
    if (one_in(3))
        return fill_of(p);
    return p.parity == 1 ? odd_parity(bits) : bits;
}

static uint32_t word_at(uint32_t place)
{
    return 65536u * capture[3 * place] + 256u * capture[3 * place + 1] + capture[3 * place + 2];
}

/* Often one of the first three: sync, and a frame time's words where there is one. */
static uint32_t draw_place(uint32_t words)
{
    return one_in(6) ? draw(3) : draw(words);
}

/* A word drawn, noise, fill on bus 0, a bit turned, another word, or another label. */
static void damage_once(plan_numbers p, uint32_t length)
{
    uint32_t place = draw_place(length / 3), other = draw_place(length / 3), old = word_at(place);
    switch (draw(6)) {
    case 0: word(place, draw_word(p)); break;
    case 1: word(place, draw(16777216)); break;
    case 2: word(place, 0x01AAAA); break;
    case 3: word(place, old ^ (1u << draw(24))); break;
    case 4: word(place, word_at(other)); break;
    default: word(place, old ^ 0x030000);
    }
}

static void damage(plan_numbers p, uint32_t length)
{
    uint32_t times = 1 + draw(3);
    for (uint32_t n = 0; n < times; n++)
        damage_once(p, length);
}

/* One to eight frames of a plan without frame time and CRC, each a sync, three drawn words, and fill; returns their length in bytes. */
static uint32_t noise(plan_numbers p)
{
    uint32_t frames = 1 + draw(8);
    for (uint32_t place = 0; place < frames * p.words; place++)
        word(place, place % p.words == 0 ? 0xFAF320 : place % p.words < 4 ? draw_word(p) : fill_of(p));
    return 3 * frames * p.words;
}

/* ==== A case ==== */

static uint64_t fold_result(uint64_t digest, result r)
{
    digest = fold(fold(fold(digest, r.answer.number), r.answer.place), r.answer.second);
    digest = fold(fold(digest, r.answer.bytes), r.answer.times);
    return fold(fold(digest, r.first), r.second);
}

/* A byte less now and then, where faults are asked for. */
static uint32_t draw_less(uint32_t size, uint32_t faults)
{
    if (size > 0 && faulty(faults, 8))
        return size - 1;
    return size;
}

/* What an answer says is needed, and up to two bytes more. */
static uint32_t draw_room(ind_answer asked, uint32_t otherwise)
{
    uint32_t more = draw(3);
    if (asked.number == 6 && asked.place < 32767)
        return (uint32_t)asked.place + more;
    return otherwise;
}

/* Room for enough times; with faults, now and then for up to two. */
static uint32_t draw_times_room(uint32_t faults)
{
    if (faulty(faults, 2))
        return 8 * draw(3);
    return 1000 + draw(8);
}

/* Both readings: first with no room, to learn the log's length, then with room a little off now and then. */
static uint64_t read_case(uint64_t digest, plan_numbers p, uint32_t length, uint32_t faults)
{
    uint32_t size = draw_less(length, faults), log_len, times_len;
    result asked = reading(0, p, size, 0, 0);
    log_len = draw_room(asked.answer, 40);
    log_len = draw_less(log_len, faults);
    times_len = draw_times_room(faults);
    digest = fold_result(digest, asked);
    digest = fold_result(digest, reading(0, p, size, log_len, times_len));
    return fold_result(digest, reading(1, p, size, log_len, times_len));
}

/* The number of times that an answer says is needed; with faults, now and then one more. */
static uint32_t times_needed(ind_answer asked, uint32_t faults)
{
    if (asked.number != 5 || asked.place >= 120)
        return 0;
    if (faulty(faults, 8))
        return (uint32_t)asked.place + 1;
    return (uint32_t)asked.place;
}

/* Composing: first with no times, to learn how many, then with no room, to learn how much. Then reading what was composed. */
static uint64_t compose_case(uint64_t digest, plan_numbers p, uint32_t faults)
{
    uint32_t log_len = draw_log(p, faults), times, out_len, length;
    result asked = composing(p, log_len, 0, 0);
    digest = fold_result(digest, asked);
    times = times_needed(asked.answer, faults);
    draw_times(times, faults);
    asked = composing(p, log_len, 8 * times, 0);
    digest = fold_result(digest, asked);
    out_len = draw_room(asked.answer, 0);
    out_len = draw_less(out_len, faults);
    asked = composing(p, log_len, 8 * times, out_len);
    digest = fold_result(digest, asked);
    length = (uint32_t)asked.answer.bytes;
    take_composed(length);
    if (faults == 1 && length > 0)
        damage(p, length);
    return read_case(digest, p, length, faults);
}

static uint64_t random_case(uint64_t digest)
{
    plan_numbers p = draw_plan();
    uint32_t what = draw(8);
    if (what == 0) {
        p.frame_time = 0;
        p.crc = 0;
        return read_case(digest, p, noise(p), 1);
    }
    if (what < 4)
        return compose_case(digest, p, 0);
    if (what == 4)
        p = spoil_plan(p);
    return compose_case(digest, p, 1);
}

void random_cases(void)
{
    for (uint32_t block = 0; block < 10; block++) {
        uint64_t digest = 0;
        for (uint32_t n = 0; n < 200; n++)
            digest = random_case(digest);
        printf("block %" PRIu32 ": %" PRIu64 "\n", block, digest);
    }
}
