/* Drawn plans and logs. */
#include <string.h>

#include "draw.h"

static uint64_t state;

/* splitmix64. No expression draws twice, so that a case does not depend on the compiler. */
static uint64_t next(void)
{
    uint64_t z = state += UINT64_C(0x9E3779B97F4A7C15);
    z = (z ^ (z >> 30)) * UINT64_C(0xBF58476D1CE4E5B9);
    z = (z ^ (z >> 27)) * UINT64_C(0x94D049BB133111EB);
    return z ^ (z >> 31);
}

void draw_start(uint64_t seed, uint64_t number)
{
    state = seed;
    state = next() + number;
    state = next();
}

uint32_t draw(uint32_t below)
{
    return (uint32_t)((next() >> 32) * below >> 32);
}

bool one_in(uint32_t n)
{
    return draw(n) == 0;
}

size_t draw_near(uint64_t length, size_t most)
{
    size_t near = length < most ? (size_t)length : most;
    switch (draw(8)) {
    case 0:
        return near > 0 ? near - 1 : near;
    case 1:
        return near < most ? near + 1 : near;
    case 2:
        return near + 9 < most ? near + draw(10) : near;
    case 3:
        return one_in(4) ? draw((uint32_t)most + 1) : 0;
    default:
        return near;
    }
}

/* ==== Plans ==== */

static uint32_t draw_words(void)
{
    switch (draw(6)) {
    case 0: case 1: case 2:
        return 128;
    case 3:
        return 129 + draw(10);
    case 4:
        return one_in(2) ? 512 : 511;
    default:
        return 128 + draw(385);
    }
}

static void draw_kinds(drawn_plan *p)
{
    uint32_t buses = p->parity ? 8 : 16, shape = draw(5), bus = one_in(4) ? (one_in(2) ? 0 : buses - 1) : draw(buses);
    uint8_t kind = (uint8_t)(1 + draw(2));
    memset(p->kinds, 0, sizeof p->kinds);
    if (p->tracks > 1 || shape == 0) {
        p->kinds[bus] = kind;
        return;
    }
    if (shape == 1 && one_in(4)) /* no used bus */
        return;
    for (uint32_t n = 0; n < buses; n++)
        p->kinds[n] = shape < 3 ? (uint8_t)draw(3) : kind;
}

/* K5: the CRC word's label and the fill bus code; of a third of the plans the usual ones, by the functions that take none. */
static void draw_label_and_code(drawn_plan *p)
{
    p->full = !one_in(3);
    p->crc_label = 3;
    p->fill_bus = 0;
    if (p->full && !one_in(8))
        p->crc_label = one_in(4) ? 1 : draw(8);
    if (p->full && !one_in(8))
        p->fill_bus = draw(p->parity ? 8 : 16);
}

/* A number that names no choice, or a plan that is illegal for another reason; some spoiled plans stay legal. */
static void spoil_plan(drawn_plan *p)
{
    static const uint32_t numbers[] = {0, 1, 2, 3, 4, 5, 7, 8, 15, 16, 127, 128, 129, 255, 256, 257, 511, 512, 513, 65536, 0x7FFFFFFF,
                                       0x80000000, 0x80000081, 0xFFFFFFFF};
    uint32_t number = numbers[draw(sizeof numbers / sizeof *numbers)], what = draw(14);
    if (what >= 10)
        p->full = true;
    switch (what) {
    case 0: p->words = number; break;
    case 1: p->tracks = number; break;
    case 2: p->frame_time = number; break;
    case 3: p->crc = number; break;
    case 4: p->parity = number; break;
    case 5: p->kinds[draw(16)] = (uint8_t)number; break;
    case 6: p->kinds_len = draw(33); break;
    case 7: p->parity = 1; p->kinds[8 + draw(8)] = (uint8_t)(1 + draw(2)); break;
    case 8: p->tracks = 2 + draw(3); p->kinds[draw(16)] = (uint8_t)(1 + draw(2)); break;
    case 9: p->tracks = 2 + draw(3); memset(p->kinds, 0, 16); break;
    case 10: p->crc_label = number; break;
    case 11: p->fill_bus = number; break;
    case 12: p->crc_label = 8 + draw(8); break;
    default: p->fill_bus = 8 + draw(9); break;
    }
}

void draw_plan(drawn *d)
{
    drawn_plan *p = &d->plan;
    p->words = draw_words();
    p->tracks = one_in(2) ? 1 : 1 + draw(4);
    p->frame_time = draw(2);
    p->crc = draw(2);
    p->parity = draw(2);
    p->kinds_len = 16;
    draw_kinds(p);
    draw_label_and_code(p);
    d->legal = !one_in(12);
    if (!d->legal)
        spoil_plan(p);
}

/* ==== Logs ==== */

static void put(drawn *d, size_t *bit, uint32_t width, uint64_t value)
{
    for (; width > 0; width--, ++*bit)
        if (*bit / 8 < DRAWN_LOG_MAX) {
            uint8_t mask = (uint8_t)(0x80 >> *bit % 8);
            if (value >> (width - 1) & 1)
                d->log[*bit / 8] |= mask;
            else
                d->log[*bit / 8] &= (uint8_t)~mask;
        }
}

static uint32_t draw_limited(bool faults)
{
    static const uint32_t edges[] = {0, 1, 9998, 9999};
    if (faults && one_in(60))
        return one_in(2) ? 10000 : draw(16384);
    return one_in(6) ? edges[draw(4)] : draw(10000);
}

static uint32_t draw_16(void)
{
    static const uint32_t edges[] = {0, 1, 0xAAAA, 0xF320, 0x7FFF, 0x8000, 0xFFFF};
    return one_in(6) ? edges[draw(7)] : draw(65536);
}

static void put_tag(drawn *d, size_t *bit, bool faults)
{
    put(d, bit, 16, draw_16());
    put(d, bit, 16, draw_16());
    put(d, bit, 14, draw_limited(faults));
}

/* K2: an ARINC word of that bus and channel, behind its notice. */
static uint32_t put_answer(drawn *d, size_t *bit, uint32_t bus, uint32_t channel)
{
    put(d, bit, 4, 5);
    put(d, bit, 4, bus);
    put(d, bit, 3, 2 * channel);
    put(d, bit, 16, draw_16());
    put(d, bit, 16, draw_16());
    return 2;
}

/* Puts an item; returns how many words it makes. With `answered` a notice has its word right behind it, else most have. */
static uint32_t put_item(drawn *d, size_t *bit, uint32_t bus, uint32_t bus_kind, bool faults, bool answered)
{
    static const uint8_t kinds[2][8] = {{1, 1, 2, 2, 3, 4, 7, 8}, {5, 5, 5, 5, 6, 6, 7, 8}};
    uint32_t kind = kinds[bus_kind == 2][draw(8)], flag = draw(2);
    if (faults && one_in(60))
        kind = draw(16);
    if (faults && one_in(60))
        bus = draw(16);
    put(d, bit, 4, kind);
    if (kind == 0)
        return 0;
    put(d, bit, 4, bus);
    switch (kind) {
    case 1:
        put(d, bit, 2, 2 * draw(2) + flag);
        put(d, bit, 16, draw_16());
        if (flag)
            put_tag(d, bit, faults);
        return flag ? 4 : 1;
    case 2:
        put(d, bit, 2, 2 * draw(2) + flag);
        put(d, bit, 16, draw_16());
        if (flag)
            put(d, bit, 14, draw_limited(faults));
        return flag ? 2 : 1;
    case 5:
        put(d, bit, 3, 2 * draw(4) + flag);
        put(d, bit, 16, draw_16());
        put(d, bit, 16, draw_16());
        if (flag)
            put_tag(d, bit, faults);
        return flag ? 5 : 2;
    case 6: {
        uint32_t information = draw(1024);
        put(d, bit, 10, information);
        if (answered || !one_in(4))
            return 1 + put_answer(d, bit, bus, information >> 8);
        return 1;
    }
    case 3: case 4: case 7:
        put(d, bit, 1, draw(2));
        put(d, bit, 16, draw_16());
        return 1;
    default:
        put(d, bit, 16, draw_16());
        return 1;
    }
}

static uint64_t slots(const drawn_plan *p)
{
    return (uint64_t)p->tracks * (p->words - 1 - p->crc) - 3 * p->frame_time;
}

/* How many words the log is to make: none, a few, around the edge of a group, or as many as a log can hold and more. */
static uint64_t draw_size(const drawn *d)
{
    switch (draw(8)) {
    case 0:
        return draw(3);
    case 1: case 2:
        return d->legal ? slots(&d->plan) * (1 + draw(2)) - 2 + draw(4) : 20;
    case 3:
        return one_in(40) ? 20000 : draw(600);
    default:
        return draw(100);
    }
}

static void spoil_log(drawn *d)
{
    size_t length = d->log_len;
    switch (draw(5)) {
    case 0: d->log_len = draw((uint32_t)length + 1); break;
    case 1: d->log_len = length - 1; break;
    case 2: d->log[length] = (uint8_t)(one_in(2) ? 0 : draw(256)); d->log_len = length + 1; break;
    case 3: d->log[length - 1] ^= (uint8_t)(1u << draw(4)); break;
    default: d->log[draw((uint32_t)length)] = (uint8_t)draw(256); break;
    }
}

static void draw_times(drawn *d, bool faults)
{
    uint64_t needed = d->legal && d->plan.frame_time == 1 ? d->groups : 0;
    d->times_len = 8 * (size_t)needed;
    if (faults && one_in(4)) {
        d->times_len = draw_near(d->times_len, DRAWN_TIMES_MAX);
        if (one_in(4))
            d->times_len = 8 * (size_t)(needed + draw(3));
    }
    for (size_t n = 0; n < d->times_len; n += 8) {
        uint64_t time = draw_16();
        time = 65536 * time + draw_16();
        time = 10000 * time + draw_limited(false);
        if (faults && one_in(10))
            time = one_in(3) ? next() : UINT64_C(42949672959998) + draw(4);
        for (size_t i = 0; i < 8 && n + i < d->times_len; i++)
            d->times[n + i] = (uint8_t)(time >> (56 - 8 * i));
    }
}

void draw_log(drawn *d)
{
    bool faults = one_in(3), answered = !one_in(3);
    uint64_t wanted = draw_size(d), count = 0;
    size_t bit = 0, most = 8 * 32768 - (one_in(4) ? 100 : 4);
    uint32_t used[16], buses = 0, tries = 0;
    for (uint32_t bus = 0; bus < 16; bus++)
        if (d->plan.kinds[bus] != 0)
            used[buses++] = bus;
    while (count < wanted && buses > 0) {
        uint32_t bus = used[draw(buses)];
        size_t before = bit;
        uint32_t words = put_item(d, &bit, bus, d->plan.kinds[bus], faults && wanted < 20000, answered);
        count += words;
        if (bit > most) { /* up to the limit, with smaller items if such are drawn, and now and then above it */
            if (one_in(20))
                break;
            bit = before;
            count -= words;
            if (++tries == 16)
                break;
        }
    }
    put(d, &bit, 4, 0);
    while (bit % 8 != 0)
        put(d, &bit, 1, 0);
    d->log_len = bit / 8;
    if (faults && one_in(3))
        spoil_log(d);
    d->groups = d->legal ? (count + slots(&d->plan) - 1) / slots(&d->plan) : 0;
    draw_times(d, faults);
}
