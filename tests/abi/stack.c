/* The stack that a call needs: each function is called in a thread whose stack is painted, and what lost its paint is measured and
 * held to VIN_STACK_BYTES of include/vinculampe.h. Plans of all tracks and choices, and labels, also by the functions that take none; logs from one item to the longest; captures up to
 * the largest; calls that are refused. The other functions on captures: a line each in `over_captures`. The functions on logs are held to
 * VIN_LOG_STACK_BYTES: a line each in `over_logs`. */
#define _GNU_SOURCE
#include <pthread.h>
#include <stdbool.h>
#include <stdio.h>
#include <stdlib.h>
#include <string.h>
#include <sys/mman.h>

#include "../../include/vinculampe.h"

enum { STACK = 1 << 18, PAINT = 0x5A, LEAST = 1024, LEAST_OVER_LOGS = 64 };

static uint8_t log_bytes[VIN_LOG_MAX], times[VIN_READ_GROUPS_MAX * VIN_TIME_BYTES], capture[VIN_CAPTURE_MAX];
static uint8_t back[VIN_LOG_MAX], back_times[VIN_READ_GROUPS_MAX * VIN_TIME_BYTES];

/* ==== The functions on logs: each over a log of so many bytes, and with so much room ==== */

static void call_pick(size_t length, size_t room)
{
    vin_pick(log_bytes, length, 0xAAAC, back, room);
}

static void call_join(size_t length, size_t room)
{
    vin_join(log_bytes, length, log_bytes, length, back, room);
}

static void call_shift(size_t length, size_t room)
{
    vin_shift(log_bytes, length, 1, back_times, sizeof back_times, back, room);
}

static void call_profile(size_t length, size_t room)
{
    (void)room;
    vin_profile(log_bytes, length);
}

/* Two items arrive, a group of one word leaves: the buffer runs full. */
static void call_replay(size_t length, size_t room)
{
    static uint8_t events[VIN_EVENTS_MAX];
    size_t count = length < 4000 ? length / 10 : 400;
    for (size_t n = 0; n < count; n++)
        events[n] = n % 3 == 2 ? VIN_GROUP_LEAVES : VIN_ITEM_ARRIVES;
    vin_replay(log_bytes, length, events, count, 8, 1, back, room);
}

static const struct {
    const char *name;
    void (*call)(size_t length, size_t room);
} over_logs[] = {{"pick", call_pick}, {"join", call_join}, {"shift", call_shift}, {"profile", call_profile}, {"replay", call_replay}};
enum { OVER_LOGS = sizeof over_logs / sizeof *over_logs };

/* ==== The other functions on captures: each over the capture's first bytes, with room and without ==== */

static uint32_t words[VIN_WORDS_MAX];
static size_t words_length; /* of the capture at hand */

static void call_read_words(const vin_plan *plan, size_t length, bool roomy)
{
    vin_plan_read_words(plan, capture, length, words, roomy ? VIN_WORDS_MAX : 0, back_times, sizeof back_times);
}

static void call_read_items(const vin_plan *plan, size_t length, bool roomy)
{
    (void)length;
    vin_plan_read_items(plan, words, words_length, back, roomy ? sizeof back : 0);
}

/* As it is; or, without room for the report, with a bit of its last group changed, so that the group is dropped, or a word. */
static void call_salvage(const vin_plan *plan, size_t length, bool roomy)
{
    static uint64_t report[VIN_WORDS_MAX];
    capture[length - 4] ^= roomy ? 0 : 0x10;
    vin_plan_salvage(plan, capture, length, back, sizeof back, back_times, sizeof back_times, report, roomy ? VIN_WORDS_MAX : 0);
    capture[length - 4] ^= roomy ? 0 : 0x10;
}

/* In pieces as long as can be, and at the end one that is no capture; without room a byte a call, for some groups. */
static void call_stream(const vin_plan *plan, size_t length, bool roomy)
{
    static uint8_t state[VIN_STATE_BYTES];
    size_t size = roomy ? VIN_PIECE_MAX : 1, end = roomy || length < 10000 ? length : 10000;
    vin_plan_stream_open(plan, state, sizeof state);
    for (size_t at = 0; at < end; at += size)
        vin_plan_stream_feed(state, sizeof state, capture + at, end - at < size ? end - at : size, back, sizeof back, back_times,
                             sizeof back_times);
    if (roomy)
        vin_plan_stream_feed(state, sizeof state, capture + 1, VIN_PIECE_MAX, back, sizeof back, back_times, sizeof back_times);
    vin_plan_stream_close(state, sizeof state, back, sizeof back);
}

static const struct {
    const char *name;
    void (*call)(const vin_plan *plan, size_t length, bool roomy);
} over_captures[] = {{"read_words", call_read_words}, {"read_items", call_read_items}, {"salvage", call_salvage},
                     {"stream", call_stream}};
enum { OVER_CAPTURES = sizeof over_captures / sizeof *over_captures };

/* ==== A call in a painted stack ==== */

typedef struct {
    enum { COMPOSE, READ, READ_CLOSED, OVER_LOG, OVER_CAPTURE = OVER_LOG + OVER_LOGS } function;
    vin_plan plan;
    size_t length, times_length, room;
    vin_answer answer;
    uint8_t *above; /* an address in the caller's frame */
    size_t index;   /* in over_logs or over_captures */
} work;

/* By the functions that take no CRC label and no fill bus. */
static vin_answer called_without_label(const work *w)
{
    const vin_plan *p = &w->plan;
    if (w->function == COMPOSE)
        return vin_compose(p->words, p->tracks, p->frame_time, p->crc, p->parity, p->kinds, 16, log_bytes, w->length, times,
                           w->times_length, capture, w->room);
    return (w->function == READ ? vin_read : vin_read_closed)(p->words, p->tracks, p->frame_time, p->crc, p->parity, p->kinds, 16, capture,
                                                              w->length, back, w->room, back_times, sizeof back_times);
}

static void *run(void *given)
{
    work *w = given;
    uint8_t here = 0;
    w->above = &here;
    if (w->function == OVER_LOG)
        over_logs[w->index].call(w->length, w->room);
    else if (w->function == OVER_CAPTURE)
        over_captures[w->index].call(&w->plan, w->length, w->room > 0);
    else if (!w->plan.full)
        w->answer = called_without_label(w);
    else if (w->function == COMPOSE)
        w->answer = vin_plan_compose(&w->plan, log_bytes, w->length, times, w->times_length, capture, w->room);
    else
        w->answer = (w->function == READ ? vin_plan_read : vin_plan_read_closed)(&w->plan, capture, w->length, back, w->room,
                                                                                 back_times, sizeof back_times);
    return NULL;
}

/* The bytes below the caller's frame that a call touched. */
static size_t used(work *w, uint8_t *stack)
{
    pthread_attr_t attributes;
    pthread_t thread;
    size_t n = 0;
    memset(stack, PAINT, STACK);
    if (pthread_attr_init(&attributes) != 0 || pthread_attr_setstack(&attributes, stack, STACK) != 0
        || pthread_create(&thread, &attributes, run, w) != 0 || pthread_join(thread, NULL) != 0) {
        printf("stack: no thread\n");
        exit(2);
    }
    pthread_attr_destroy(&attributes);
    while (stack[n] == PAINT)
        n++;
    return (size_t)(w->above - (stack + n));
}

static size_t bits;

static void put(unsigned width, uint32_t value)
{
    for (; width > 0; width--, bits++)
        if (value >> (width - 1) & 1)
            log_bytes[bits / 8] |= (uint8_t)(0x80 >> bits % 8);
}

/* Tagged commands, statuses with their response, and data words on bus 2, or ARINC words tagged and not. */
static size_t make_log(size_t most, unsigned kind)
{
    memset(log_bytes, 0, sizeof log_bytes);
    bits = 0;
    for (unsigned n = 0; bits + 89 + 4 <= 8 * most; n++) {
        unsigned timed = n % 3 == 0;
        if (kind == VIN_KIND_1553 && n % 3 != 2) {
            put(8, n % 3 == 0 ? 0x12 : 0x22);
            put(2, 1); /* A, with its time */
            put(16, n);
            put(n % 3 == 0 ? 32 : 0, n);
            put(14, n % 10000);
        } else if (kind == VIN_KIND_1553) {
            put(8, 0x32);
            put(17, n);
        } else {
            put(8, 0x52);
            put(3, n % 4 << 1 | timed);
            put(32, n);
            put(timed ? 32 : 0, n);
            put(timed ? 14 : 0, n % 10000);
        }
    }
    put(4, 0);
    return (bits + 7) / 8;
}

static size_t most[OVER_CAPTURE + OVER_CAPTURES];

static vin_answer measure(work w, uint8_t *stack)
{
    size_t bytes = used(&w, stack), *is = &most[w.function + w.index];
    if (bytes > *is)
        *is = bytes;
    return w.answer;
}

/* Each function on logs over a log, with room and without. */
static void measure_log(size_t length, uint8_t *stack)
{
    for (size_t n = 0; n < OVER_LOGS; n++)
        for (int roomy = 0; roomy < 2; roomy++) {
            work w = {OVER_LOG, VIN_PLAN_INIT(0, 0), length, 0, roomy ? sizeof back : 0, {0, 0, 0, 0, 0}, NULL, n};
            measure(w, stack);
        }
}

/* Each other function on captures over the capture's first bytes, with room and without. */
static void measure_capture(vin_plan plan, size_t length, uint8_t *stack)
{
    words_length = (size_t)vin_plan_read_words(&plan, capture, length, words, VIN_WORDS_MAX, back_times, sizeof back_times).bytes;
    for (size_t n = 0; n < OVER_CAPTURES; n++)
        for (int roomy = 0; roomy < 2; roomy++) {
            work w = {OVER_CAPTURE, plan, length, 0, (size_t)roomy, {0, 0, 0, 0, 0}, NULL, n};
            measure(w, stack);
        }
}

/* A plan's calls: composed, read and read closed, each also without room; then a capture as large as can be. */
static void measure_plan(vin_plan plan, size_t log_length, uint8_t *stack)
{
    work w = {COMPOSE, plan, log_length, 0, sizeof capture, {0, 0, 0, 0, 0}, NULL, 0};
    vin_answer a = measure(w, stack);
    w.times_length = a.number == VIN_TIMES ? (size_t)a.place * VIN_TIME_BYTES : 0;
    a = measure(w, stack);
    if (a.number != VIN_DONE) {
        printf("stack: composing is refused by %u\n", (unsigned)a.number);
        exit(2);
    }
    size_t group = VIN_GROUP_BYTES(plan.words, plan.tracks), length = (size_t)a.bytes;
    for (int closed = 0; closed < 2; closed++) {
        work r = {closed ? READ_CLOSED : READ, plan, length, 0, sizeof back, {0, 0, 0, 0, 0}, NULL, 0};
        if (measure(r, stack).number != VIN_DONE) {
            printf("stack: reading is refused\n");
            exit(2);
        }
        r.room = 0;
        measure(r, stack);
    }
    measure_capture(plan, length, stack);
    for (size_t at = length; at + group <= sizeof capture; at += group) /* the last group again and again */
        memcpy(capture + at, capture + length - group, group);
    work r = {READ, plan, sizeof capture / group * group, 0, sizeof back, {0, 0, 0, 0, 0}, NULL, 0};
    measure(r, stack);
    measure_capture(plan, sizeof capture / group * group, stack);
    w.room = 0;
    measure(w, stack);
}

int main(void)
{
    uint8_t *stack = mmap(NULL, STACK, PROT_READ | PROT_WRITE, MAP_PRIVATE | MAP_ANONYMOUS, -1, 0);
    if (stack == MAP_FAILED) {
        perror("stack");
        return 2;
    }
    for (unsigned kind = VIN_KIND_1553; kind <= VIN_KIND_ARINC; kind++)
        for (uint32_t tracks = 1; tracks <= 4; tracks++)
            for (unsigned choices = 0; choices < 8; choices++)
                for (int longest = 0; longest < 2; longest++) {
                    vin_plan plan = VIN_PLAN_INIT(longest ? 512 : 128, tracks);
                    plan.crc_label = choices;
                    plan.fill_bus = 7 - choices;
                    plan.frame_time = choices & 1;
                    plan.crc = choices >> 1 & 1;
                    plan.parity = choices >> 2;
                    plan.kinds[2] = (uint8_t)kind;
                    measure_plan(plan, make_log(longest ? VIN_LOG_MAX : 12, kind), stack);
                    plan.full = 0;
                    measure_plan(plan, make_log(longest ? VIN_LOG_MAX : 12, kind), stack);
                }
    for (unsigned kind = VIN_KIND_1553; kind <= VIN_KIND_ARINC; kind++)
        for (size_t bytes = 12; bytes <= VIN_LOG_MAX; bytes = 2 * bytes < VIN_LOG_MAX || bytes == VIN_LOG_MAX ? 2 * bytes : VIN_LOG_MAX) {
            size_t length = make_log(bytes, kind);
            measure_log(length, stack);
            measure_log(length - 1, stack); /* refused by 2 */
        }
    bool good = true;
    for (int n = 0; n < 3; n++)
        good = good && most[n] >= LEAST && most[n] <= VIN_STACK_BYTES;
    printf("stack: composing %zu bytes, reading %zu, closed reading %zu; the header says %d\n", most[COMPOSE], most[READ],
           most[READ_CLOSED], VIN_STACK_BYTES);
    printf("stack, on captures:");
    for (int n = 0; n < OVER_CAPTURES; n++) {
        printf(" %s %zu,", over_captures[n].name, most[OVER_CAPTURE + n]);
        good = good && most[OVER_CAPTURE + n] >= LEAST_OVER_LOGS && most[OVER_CAPTURE + n] <= VIN_STACK_BYTES;
    }
    printf(" the header says %d\n", VIN_STACK_BYTES);
    printf("stack, on logs:");
    for (int n = 0; n < OVER_LOGS; n++) {
        printf(" %s %zu,", over_logs[n].name, most[OVER_LOG + n]);
        good = good && most[OVER_LOG + n] >= LEAST_OVER_LOGS && most[OVER_LOG + n] <= VIN_LOG_STACK_BYTES;
    }
    printf(" the header says %d\n", VIN_LOG_STACK_BYTES);
    return !good;
}
