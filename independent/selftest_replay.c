/* Document 02, K13, over the independent implementation. */
#include <string.h>

#include "selftest.h"

static log_writer writer, wanted;
static uint8_t out[LOG_MAX];

/* Words: a tagged command has 4, a tagged ARINC word 5, a data word and a notice 1. */
static const item command = {.kind = COMMAND, .bus = 2, .word = 0x0843, .tagged = true, .time = {0, 1, 5}};
static const item arinc = {.kind = ARINC_WORD, .bus = 5, .channel = 1, .word = 0xDEADBEEF, .tagged = true, .time = {0, 1, 5}};
static const item data = {.kind = DATA, .bus = 2, .word = 0xBEEF};
static const item other = {.kind = DATA, .bus = 9, .b = 1, .word = 7};

static size_t log_of(log_writer *w, const item *items, size_t count)
{
    log_begin(w);
    for (size_t n = 0; n < count; n++)
        log_put(w, &items[n]);
    return (size_t)log_end(w);
}

/* Events as letters: i, the next item arrives; g, a group leaves. */
static size_t events_of(const char *letters, uint8_t *events)
{
    size_t count = strlen(letters);
    for (size_t n = 0; n < count; n++)
        events[n] = letters[n] == 'g';
    return count;
}

static ind_replayed replay(const item *items, size_t count, const char *letters, uint32_t capacity, uint32_t slots, size_t room)
{
    uint8_t events[64];
    size_t bytes = log_of(&writer, items, count), length = events_of(letters, events);
    memset(out, 0xA5, sizeof out);
    return ind_replay(writer.bytes, bytes, events, length, capacity, slots, out, room);
}

/* Done, with these counts, and the log of these items is written and nothing behind it. */
static bool stores(ind_replayed a, const item *items, size_t count, uint64_t sent, uint64_t lost, uint64_t held)
{
    size_t bytes = log_of(&wanted, items, count);
    return a.number == 0 && a.place == 0 && a.second == 0 && a.bytes == bytes && a.sent == sent && a.lost == lost && a.held == held
           && memcmp(out, wanted.bytes, bytes) == 0 && out[bytes] == 0xA5;
}

/* Refused, all counts 0, and nothing written. */
static bool is_refused(ind_replayed a, uint32_t number, uint64_t place)
{
    for (size_t n = 0; n < sizeof out; n++)
        if (out[n] != 0xA5)
            return false;
    return a.number == number && a.place == place && a.second == 0 && a.bytes == 0 && a.sent == 0 && a.lost == 0 && a.held == 0;
}

static item mark(uint32_t bus, uint32_t lost)
{
    return (item){.kind = OVERFLOW_MARK, .bus = bus, .word = lost};
}

static void buffers(void)
{
    const item few[] = {command, data, arinc};
    CHECK(stores(replay(few, 3, "", 8, 1, 100), NULL, 0, 0, 0, 0));
    CHECK(stores(replay(few, 3, "ggg", 8, 1, 100), NULL, 0, 0, 0, 0));
    CHECK(stores(replay(few, 3, "ii", 8, 1, 100), few, 2, 0, 0, 5)); /* the third never arrives */
    CHECK(stores(replay(few, 3, "iii", 10, 1, 100), few, 3, 0, 0, 10)); /* just full */
    CHECK(stores(replay(few, 3, "iiig", 10, 2048, 100), few, 3, 10, 0, 0)); /* as many as there are */
    CHECK(stores(replay(few, 3, "giigig", 10, 3, 100), few, 3, 6, 0, 4)); /* an item leaves in two groups */
    CHECK(stores(replay(few, 3, "iii", 9, 1, 100), few, 2, 0, 1, 5)); /* lost whole; no mark behind the last item */
}

static void marks(void)
{
    const item many[] = {command, command, other, data, arinc, data, data};
    /* Two commands fill 8 words. other and data are lost; one word leaves: the next needs its words and the mark's. */
    CHECK(stores(replay(many, 7, "iiii", 8, 1, 100), many, 2, 0, 2, 8));
    CHECK(stores(replay(many, 7, "iiiigi", 8, 1, 100), many, 2, 1, 3, 7)); /* the ARINC word needs six */
    CHECK(stores(replay(many, 7, "iiiigii", 8, 1, 100), many, 2, 1, 4, 7)); /* a data word fits alone, but not with its mark */
    CHECK(stores(replay(many, 7, "iiiiggiii", 8, 1, 100), (item[]){command, command, mark(9, 3), data}, 4, 2, 4, 8));
    CHECK(stores(replay(many, 7, "iiiigi", 8, 6, 100), (item[]){command, command, mark(9, 2), arinc}, 4, 6, 2, 8));
    /* A mark starts the count anew, and names the first item lost since. */
    CHECK(stores(replay(many, 7, "iiiigiigi", 8, 6, 100), (item[]){command, command, mark(9, 2), arinc, mark(2, 1), data}, 6, 12, 3, 4));
}

static void refusals(void)
{
    const item marked[] = {data, command, mark(2, 1), mark(2, 1)};
    const item plain[] = {data, command};
    const item above[] = {data, mark(2, 1), {.kind = STATUS, .bus = 2, .timed = true, .response = 10000}};
    static uint8_t events[65536];
    size_t bytes;
    CHECK(is_refused(replay(above, 3, "iiii", 7, 0, 100), 4, 49));
    CHECK(is_refused(replay(marked, 4, "ii", 8, 1, 100), 19, 97));
    CHECK(is_refused(replay(marked, 4, "iiiii", 7, 0, 0), 19, 97)); /* the mark's place before the limits */
    CHECK(is_refused(replay(marked, 4, "", 8, 1, 100), 19, 97));    /* also where it never arrives */
    CHECK(is_refused(replay(plain, 2, "ii", 7, 1, 100), 19, 0));
    CHECK(is_refused(replay(plain, 2, "ii", 4097, 1, 100), 19, 0));
    CHECK(is_refused(replay(plain, 2, "ii", 8, 0, 100), 19, 0));
    CHECK(is_refused(replay(plain, 2, "ii", 8, 2049, 100), 19, 0));
    CHECK(is_refused(replay(plain, 2, "iii", 8, 1, 100), 19, 0));
    CHECK(is_refused(replay(plain, 2, "iii", 8, 1, 0), 19, 0)); /* before 6 */
    CHECK(stores(replay(plain, 2, "ii", 4096, 2048, 100), plain, 2, 0, 0, 5));
    CHECK(is_refused(replay(plain, 2, "ii", 8, 1, 12), 6, 13));
    CHECK(stores(replay(plain, 2, "ii", 8, 1, 13), plain, 2, 0, 0, 5));
    CHECK(is_refused(replay(plain, 2, "", 8, 1, 0), 6, 1));
    bytes = log_of(&writer, plain, 2);
    memset(out, 0xA5, sizeof out);
    CHECK(is_refused(ind_replay(writer.bytes, bytes - 1, events, 0, 8, 1, out, 100), 2, 25));
    CHECK(is_refused(ind_replay(writer.bytes, LOG_MAX + 1, events, 0, 8, 1, out, 100), 2, 0));
    memset(events, 1, sizeof events);
    CHECK(is_refused(ind_replay(writer.bytes, bytes, events, 65536, 8, 1, out, 100), 19, 0));
    CHECK(ind_replay(writer.bytes, bytes, events, 65535, 8, 1, out, 100).number == 0);
    memset(out, 0xA5, sizeof out);
    events[100] = 2;
    CHECK(is_refused(ind_replay(writer.bytes, bytes, events, 101, 8, 1, out, 100), 19, 0));
    CHECK(ind_replay(writer.bytes, bytes, events, 100, 8, 1, out, 100).number == 0);
}

/* Notices, of 18 bits, lost and stored in turn: each mark has 24, so that the result is longer than the log, and too long. */
static void longer(void)
{
    const item notice = {.kind = NOTICE, .bus = 5};
    static uint8_t events[65535];
    size_t count = 8, bytes;
    log_begin(&writer);
    for (int n = 0; n < 14500; n++)
        log_put(&writer, &notice);
    bytes = (size_t)log_end(&writer);
    for (; count + 3 <= 8 + 3 * 7246; count += 3)
        events[count + 1] = 1;
    memset(out, 0xA5, sizeof out);
    CHECK(bytes == 32626);
    CHECK(is_refused(ind_replay(writer.bytes, bytes, events, count, 8, 2, out, sizeof out), 6, (8 * 18 + 7246 * 42 + 4 + 7) / 8));
}

void selftest_replay(void)
{
    buffers();
    marks();
    refusals();
    longer();
}
