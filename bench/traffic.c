#include "traffic.h"

#include <stdio.h>
#include <string.h>

/* ==== Drawing ==== */

static uint64_t state;

static uint32_t draw(uint32_t below)
{
    state ^= state << 13;
    state ^= state >> 7;
    state ^= state << 17;
    return (uint32_t)((state >> 32) * below >> 32);
}

/* ==== The log ==== */

static size_t bit, words;
static int items;

static void put(traffic *t, uint32_t width, uint64_t value)
{
    for (; width > 0; width--, bit++)
        if (value >> (width - 1) & 1)
            t->log[bit / 8] |= (uint8_t)(0x80 >> bit % 8);
}

/* Kind and bus. */
static void put_head(traffic *t, uint64_t value)
{
    put(t, 8, value);
    items++;
}

static void put_tag(traffic *t)
{
    put(t, 16, draw(65536));
    put(t, 16, draw(65536));
    put(t, 14, draw(10000));
    words += 3;
}

static void command(traffic *t, uint32_t bus, uint32_t b, uint32_t tagged)
{
    put_head(t, 1 << 4 | bus);
    put(t, 2, 2 * b + tagged);
    put(t, 16, draw(65536));
    words += 1;
    if (tagged)
        put_tag(t);
}

static void command_at(traffic *t, uint32_t bus, uint32_t b, uint64_t time)
{
    put_head(t, 1 << 4 | bus);
    put(t, 2, 2 * b + 1);
    put(t, 16, draw(65536));
    put(t, 32, time / 10000);
    put(t, 14, time % 10000);
    words += 4;
}

static void status(traffic *t, uint32_t bus, uint32_t b, uint32_t timed)
{
    put_head(t, 2 << 4 | bus);
    put(t, 2, 2 * b + timed);
    put(t, 16, draw(65536));
    if (timed)
        put(t, 14, draw(10000));
    words += 1 + timed;
}

static void data(traffic *t, uint32_t kind, uint32_t bus, uint32_t b)
{
    put_head(t, kind << 4 | bus);
    put(t, 1, b);
    put(t, 16, draw(65536));
    words += 1;
}

static void arinc_of(traffic *t, uint32_t bus, uint32_t channel, uint32_t tagged)
{
    put_head(t, 5 << 4 | bus);
    put(t, 3, 2 * channel + tagged);
    put(t, 32, (uint64_t)draw(65536) * 65521);
    words += 2;
    if (tagged)
        put_tag(t);
}

static void arinc(traffic *t, uint32_t bus, uint32_t tagged)
{
    arinc_of(t, bus, draw(4), tagged);
}

/* A notice, and the word that it tells of. */
static void notice(traffic *t, uint32_t bus, uint32_t tagged)
{
    uint32_t information = draw(1024);
    put_head(t, 6 << 4 | bus);
    put(t, 10, information);
    words += 1;
    arinc_of(t, bus, information >> 8, tagged);
}

static void overflow(traffic *t, uint32_t bus)
{
    put_head(t, 8 << 4 | bus);
    put(t, 16, draw(65536));
    words += 1;
}

/* ==== Kinds of traffic: each puts one item, or one message of a few ==== */

/* A message: a command with its time, up to 32 data words, a status with its response time, all on channel A or all on B. */
static void traffic_1553(traffic *t)
{
    uint32_t bus = t->tracks == 1 ? draw(4) : 2, b = draw(2), n = 1 + draw(32);
    command(t, bus, b, 1);
    while (n-- > 0)
        data(t, 3, bus, b);
    status(t, bus, b, 1);
}

/* ARINC words of four channels, half of them with their time. */
static void traffic_arinc(traffic *t)
{
    arinc(t, t->tracks == 1 ? 4 + draw(4) : 2, draw(2));
}

/* The same with a notice before every eighth word. */
static void traffic_noticed(traffic *t)
{
    uint32_t bus = t->tracks == 1 ? 4 + draw(4) : 2, tagged = draw(2);
    if (draw(8) == 0)
        notice(t, bus, tagged);
    else
        arinc(t, bus, tagged);
}

/* Data words, one item each, of channels A and B in no order. */
static void traffic_single(traffic *t)
{
    data(t, 3, 2, draw(2));
}

/* Every kind of item, drawn. */
static void traffic_mixed(traffic *t)
{
    uint32_t bus = draw(4), b = draw(2), flag = draw(2);
    switch (draw(9)) {
    case 0: command(t, bus, b, flag); break;
    case 1: status(t, bus, b, flag); break;
    case 2: data(t, 3, bus, b); break;
    case 3: data(t, 4, bus, b); break;
    case 4: case 5: arinc(t, 4 + bus, flag); break;
    case 6: notice(t, 4 + bus, flag); break;
    case 7: data(t, 7, bus, b); break;
    default: overflow(t, 4 + bus); break;
    }
}

/* Messages on one bus whose tags rise, now and then with a second command that has none: they keep the one-bus test profile. */
static void traffic_one_bus(traffic *t)
{
    static uint64_t time;
    uint32_t b = draw(2), n = 1 + draw(32);
    time = bit == 0 ? 36000000000 : time + draw(2000);
    command_at(t, 2, b, time);
    if (draw(8) == 0)
        command(t, 2, b, 0);
    while (n-- > 0)
        data(t, 3, 2, b);
    status(t, 2, b, 1);
}

/* ==== Rows ==== */

static const struct {
    const char *name;
    void (*put)(traffic *);
    int many_buses, log_only; /* for one track; for logs alone */
} traffics[] = {{"1553", traffic_1553, 0, 0},
                {"ARINC", traffic_arinc, 0, 0},
                {"single words", traffic_single, 0, 0},
                {"mixed", traffic_mixed, 1, 0},
                {"notices", traffic_noticed, 0, 0},
                {"one bus", traffic_one_bus, 0, 1}};

static const struct {
    uint32_t words, tracks, frame_time, crc, parity;
} plans[] = {{129, 1, 0, 0, 0}, {129, 1, 1, 1, 1}, {511, 1, 0, 0, 0}, {511, 1, 0, 1, 0}, {511, 1, 0, 0, 1}, {511, 1, 1, 1, 1},
             {129, 4, 0, 0, 0}, {129, 4, 1, 1, 1}, {511, 4, 0, 0, 0}, {511, 4, 1, 1, 1}};

/* Items are put until a log has so many bytes. */
static const struct {
    const char *name;
    size_t bytes;
} sizes[] = {{"one item", 0}, {"2,000 bytes", 2000}, {"full log", 32768 - 120}};

#define COUNT(a) (int)(sizeof(a) / sizeof *(a))

static void make_log(traffic *t, int kind, size_t bytes)
{
    size_t slots = (size_t)t->tracks * (t->words - 1 - t->crc) - 3 * t->frame_time;
    bit = words = 0;
    items = 0;
    memset(t->log, 0, sizeof t->log);
    if (bytes == 0) { /* one item, on a bus that every plan of this traffic uses */
        if (kind == 1 || kind == 4)
            arinc(t, t->tracks == 1 ? 4 : 2, 1);
        else
            data(t, 3, 2, 0);
    }
    while (bit + 33 * 40 < 8 * bytes)
        traffics[kind].put(t);
    put(t, 4, 0);
    t->log_len = (bit + 7) / 8;
    t->items = items;
    t->times_len = t->frame_time ? 8 * ((words + slots - 1) / slots) : 0;
    for (size_t n = 0; n < t->times_len; n++)
        t->times[n] = n % 8 < 3 ? 0 : (uint8_t)draw(256);
}

static void make_kinds(traffic *t, int kind)
{
    memset(t->kinds, 0, sizeof t->kinds);
    if (t->tracks > 1) {
        t->kinds[2] = kind == 1 || kind == 4 ? 2 : 1;
        return;
    }
    for (int bus = 0; bus < 8; bus++)
        t->kinds[bus] = bus < 4 ? 1 : 2;
}

int traffic_log(traffic *t, int n)
{
    static const size_t most = 16384 - 120; /* of two that are joined */
    int kind = n / (COUNT(sizes) + 1), size = n % (COUNT(sizes) + 1);
    if (kind >= COUNT(traffics))
        return 0;
    state = 88172645463325252u + (uint64_t)n;
    t->words = 512;
    t->tracks = 1;
    t->frame_time = t->crc = t->parity = 0;
    make_log(t, kind, size == COUNT(sizes) ? most : sizes[size].bytes);
    snprintf(t->name, sizeof t->name, "%s, %s", traffics[kind].name, size == COUNT(sizes) ? "half a log" : sizes[size].name);
    return 1;
}

int traffic_row(traffic *t, int n, int drawing)
{
    int seen = 0;
    for (int kind = 0; kind < COUNT(traffics); kind++)
        for (int plan = 0; plan < COUNT(plans); plan++) {
            if (traffics[kind].log_only || (traffics[kind].many_buses && plans[plan].tracks > 1))
                continue;
            for (int size = 0; size < COUNT(sizes); size++, seen++) {
                if (seen != n)
                    continue;
                state = 88172645463325252u + (uint64_t)n + (uint64_t)drawing * 1000003;
                t->words = plans[plan].words;
                t->tracks = plans[plan].tracks;
                t->frame_time = plans[plan].frame_time;
                t->crc = plans[plan].crc;
                t->parity = plans[plan].parity;
                snprintf(t->name, sizeof t->name, "%s, %u x %u%s%s%s, %s", traffics[kind].name, t->words, t->tracks,
                         t->frame_time ? " time" : "", t->crc ? " crc" : "", t->parity ? " parity" : "", sizes[size].name);
                make_kinds(t, kind);
                make_log(t, kind, sizes[size].bytes);
                t->then_largest = size == COUNT(sizes) - 1 && !t->frame_time && !t->crc;
                return 1;
            }
        }
    return 0;
}

size_t traffic_fill(const traffic *t, uint8_t *to)
{
    size_t words = (size_t)t->words * t->tracks;
    for (size_t n = 0; n < words; n++)
        memcpy(to + 3 * n, n % t->words == 0 ? "\xFA\xF3\x20" : "\x01\xAA\xAA", 3);
    return 3 * words;
}
