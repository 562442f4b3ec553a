/* Document 02, K11, over the independent implementation: each rule kept and broken, alone and late in a log. */
#include "selftest.h"

static log_writer writer;

/* Items of bus 2, side A. */
#define TAGGED(time_low) {.kind = COMMAND, .bus = 2, .word = 0x0843, .tagged = true, .time = {0, time_low, 0}}
#define BARE {.kind = COMMAND, .bus = 2, .word = 0x0844}
#define BARE_B {.kind = COMMAND, .bus = 2, .b = 1, .word = 0x0844}
#define ANSWERED {.kind = STATUS, .bus = 2, .word = 0x0800, .timed = true, .response = 8}
#define UNANSWERED {.kind = STATUS, .bus = 2, .word = 0x0800}
#define WORD {.kind = DATA, .bus = 2, .word = 0xBEEF}
#define FAULT {.kind = BUS_ERROR, .bus = 2, .word = 1}
#define MARK {.kind = OVERFLOW_MARK, .bus = 2, .word = 7}
#define OF(...) (item[]){__VA_ARGS__}, sizeof(item[]){__VA_ARGS__} / sizeof(item)

/* The number, and which item it is at. */
typedef struct {
    uint32_t number;
    size_t at;
} found;

static found profile(const item *items, size_t count)
{
    uint64_t bits[16];
    found f = {0, 0};
    size_t bytes;
    log_begin(&writer);
    for (size_t n = 0; n < count; n++) {
        bits[n] = writer.bits;
        log_put(&writer, &items[n]);
    }
    bits[count] = writer.bits;
    bytes = log_end(&writer);
    ind_answer a = ind_profile(writer.bytes, bytes);
    CHECK(a.second == 0 && a.bytes == 0 && a.times == 0);
    f.number = a.number;
    if (a.number == 0) {
        CHECK(a.place == 0);
        return f;
    }
    while (bits[f.at] != a.place) {
        CHECK(f.at < count);
        f.at++;
    }
    return f;
}

static bool passes(const item *items, size_t count)
{
    return profile(items, count).number == 0;
}

static bool breaks_at(size_t at, const item *items, size_t count)
{
    found f = profile(items, count);
    return f.number == 18 && f.at == at;
}

void selftest_profile(void)
{
    static const uint8_t cut[] = {0x12}, ended[] = {0, 0};
    CHECK(passes(NULL, 0)); /* "the empty log passes" */
    CHECK(passes(OF(TAGGED(5), BARE, ANSWERED, WORD, FAULT, MARK, TAGGED(5), BARE)));
    /* one bus, and which one is the first item's */
    CHECK(breaks_at(1, OF(WORD, {.kind = DATA, .bus = 3})));
    CHECK(breaks_at(1, OF({.kind = DATA, .bus = 3}, WORD, WORD)));
    CHECK(breaks_at(2, OF(WORD, MARK, {.kind = OVERFLOW_MARK, .bus = 3}))); /* of marks too */
    /* no ARINC item, no user word */
    CHECK(breaks_at(1, OF(WORD, {.kind = ARINC_WORD, .bus = 2})));
    CHECK(breaks_at(1, OF(WORD, {.kind = NOTICE, .bus = 2})));
    CHECK(breaks_at(0, OF({.kind = USER, .bus = 2, .label3 = 1})));
    CHECK(breaks_at(1, OF(WORD, {.kind = USER, .bus = 2})));
    /* a command without its tag: only directly behind a tagged one of its side */
    CHECK(breaks_at(0, OF(BARE)));
    CHECK(passes(OF(TAGGED(5), BARE)));
    CHECK(breaks_at(1, OF(TAGGED(5), BARE_B)));
    CHECK(breaks_at(2, OF(TAGGED(5), BARE, BARE)));
    CHECK(breaks_at(2, OF(TAGGED(5), MARK, BARE)));
    CHECK(breaks_at(2, OF(TAGGED(5), ANSWERED, BARE)));
    /* a status without its response */
    CHECK(breaks_at(1, OF(WORD, UNANSWERED)));
    /* tags: equal ones pass, both sides have one clock, and what stands between does not matter */
    CHECK(passes(OF(TAGGED(5), TAGGED(5), TAGGED(6))));
    CHECK(breaks_at(1, OF(TAGGED(5), TAGGED(4))));
    CHECK(breaks_at(3, OF(TAGGED(5), BARE, WORD, {.kind = COMMAND, .bus = 2, .b = 1, .tagged = true, .time = {0, 4, 9999}})));
    CHECK(breaks_at(1, OF({.kind = COMMAND, .bus = 2, .tagged = true, .time = {1, 0, 0}}, TAGGED(65535))));
    /* the earliest of two */
    CHECK(breaks_at(1, OF(WORD, UNANSWERED, {.kind = USER, .bus = 2})));
    /* 2 and 4 over the whole log come before */
    CHECK(profile(OF(BARE, {.kind = STATUS, .bus = 2, .timed = true, .response = 10000})).number == 4);
    CHECK(ind_profile(cut, 1).number == 2 && ind_profile(cut, 0).number == 2 && ind_profile(ended, 2).number == 2);
    CHECK(ind_profile(writer.bytes, LOG_MAX + 1).number == 2);
}
