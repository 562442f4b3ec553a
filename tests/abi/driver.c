/* Compares the library (include/vinculampe.h) with the independent implementation, case by case: the answers, every lent byte, the
 * bytes around, and that a refusal changes nothing.
 *
 *     driver SEED FIRST COUNT      cases FIRST to FIRST + COUNT - 1 of that seed
 */
#include <inttypes.h>
#include <signal.h>
#include <stdio.h>
#include <stdlib.h>
#include <string.h>

#include "../../include/vinculampe.h"
#include "../../independent/independent.h"
#include "draw.h"
#include "lent.h"

#define ROOM_MAX (26 * (DRAWN_CAPTURE_MAX / 3) / 8 + 8) /* a log of nothing but commands */

static struct {
    uint64_t seed, number;
    uint64_t calls[6][16]; /* by function and answer */
} run;

static drawn the_case;
static lent kinds, in_1, in_2;           /* what is only read: kinds; log and times, or a capture */
static lent room_1, room_2;              /* what the library writes: a capture, or log and times */
static uint8_t expected_1[ROOM_MAX], expected_2[ROOM_MAX];  /* what the independent implementation writes */

enum function { COMPOSE, READ, READ_CLOSED, FUNCTIONS };
static const char *const names[] = {"vin_compose", "vin_read", "vin_read_closed", "vin_compose_full", "vin_read_full", "vin_read_closed_full"};

typedef struct {
    enum function function;
    const uint8_t *in_1, *in_2;
    size_t in_1_len, in_2_len;
    size_t room_1_len, room_2_len;
} call;

/* The function that is called: of three with the usual label and fill code, or of three with the whole plan. */
static int called(const call *c)
{
    return (int)c->function + (the_case.plan.full ? FUNCTIONS : 0);
}

/* ==== A failure ==== */

static void say_answer(const char *who, vin_answer a)
{
    printf("  %s: number %" PRIu32 " place %" PRIu64 " second %" PRIu64 " bytes %" PRIu64 " times %" PRIu64 "\n", who, a.number, a.place,
           a.second, a.bytes, a.times);
}

static void failed(const call *c, const char *why, vin_answer ours, vin_answer theirs)
{
    const drawn_plan *p = &the_case.plan;
    printf("FAILED: seed %" PRIu64 " case %" PRIu64 ": %s: %s\n", run.seed, run.number, names[called(c)], why);
    printf("  plan: words %" PRIu32 " tracks %" PRIu32 " frame_time %" PRIu32 " crc %" PRIu32 " parity %" PRIu32 " crc_label %" PRIu32
           " fill_bus %" PRIu32 " kinds", p->words, p->tracks, p->frame_time, p->crc, p->parity, p->crc_label, p->fill_bus);
    for (size_t n = 0; n < p->kinds_len; n++)
        printf(" %u", p->kinds[n]);
    printf("\n  lengths: in %zu %zu, room %zu %zu\n", c->in_1_len, c->in_2_len, c->room_1_len, c->room_2_len);
    say_answer("library", ours);
    say_answer("independent", theirs);
    for (size_t n = 0; n < c->room_1_len; n++)
        if (room_1.at[n] != expected_1[n]) {
            printf("  byte %zu of the first room: library %02X, independent %02X\n", n, room_1.at[n], expected_1[n]);
            break;
        }
    printf("  to repeat it: tests/abi/run --case %" PRIu64 " %" PRIu64 "\n", run.seed, run.number);
    exit(1);
}

/* A byte beyond what was lent is a fault of the processor. */
static void caught(int signal)
{
    printf("FAILED: seed %" PRIu64 " case %" PRIu64 ": signal %d\n", run.seed, run.number, signal);
    printf("  to repeat it: tests/abi/run --case %" PRIu64 " %" PRIu64 "\n", run.seed, run.number);
    fflush(stdout);
    _Exit(1);
}

/* ==== A call of both ==== */

static vin_answer as_vin(ind_answer a)
{
    vin_answer v = {a.number, a.place, a.second, a.bytes, a.times};
    return v;
}

static bool same(vin_answer a, vin_answer b)
{
    return a.number == b.number && a.place == b.place && a.second == b.second && a.bytes == b.bytes && a.times == b.times;
}

static vin_answer library_full(const call *c)
{
    const drawn_plan *p = &the_case.plan;
    if (c->function == COMPOSE)
        return vin_compose_full(p->words, p->tracks, p->frame_time, p->crc, p->parity, p->crc_label, p->fill_bus, kinds.at, p->kinds_len,
                                in_1.at, c->in_1_len, in_2.at, c->in_2_len, room_1.at, c->room_1_len);
    return (c->function == READ ? vin_read_full : vin_read_closed_full)(
        p->words, p->tracks, p->frame_time, p->crc, p->parity, p->crc_label, p->fill_bus, kinds.at, p->kinds_len, in_1.at, c->in_1_len,
        room_1.at, c->room_1_len, room_2.at, c->room_2_len);
}

static vin_answer library(const call *c)
{
    const drawn_plan *p = &the_case.plan;
    if (p->full)
        return library_full(c);
    if (c->function == COMPOSE)
        return vin_compose(p->words, p->tracks, p->frame_time, p->crc, p->parity, kinds.at, p->kinds_len, in_1.at, c->in_1_len,
                           in_2.at, c->in_2_len, room_1.at, c->room_1_len);
    return (c->function == READ ? vin_read : vin_read_closed)(
        p->words, p->tracks, p->frame_time, p->crc, p->parity, kinds.at, p->kinds_len, in_1.at, c->in_1_len,
        room_1.at, c->room_1_len, room_2.at, c->room_2_len);
}

/* The drawn plan as the header has it: begun with its macro; or, if label and code are the usual ones, begun with zeros now and then, as
 * a program from before there were others may do it. */
static vin_plan plan_struct(const drawn_plan *p)
{
    vin_plan plan = VIN_PLAN_INIT(p->words, p->tracks);
    if (p->full) {
        plan.crc_label = p->crc_label;
        plan.fill_bus = p->fill_bus;
    } else if (one_in(2)) {
        memset(&plan, 0, sizeof plan);
        plan.words = p->words;
        plan.tracks = p->tracks;
    }
    plan.frame_time = p->frame_time;
    plan.crc = p->crc;
    plan.parity = p->parity;
    memcpy(plan.kinds, p->kinds, 16);
    return plan;
}

/* The same through the header's wrappers, with null pointers for runs of length 0. */
static vin_answer library_by_plan(const call *c)
{
    vin_plan plan = plan_struct(&the_case.plan);
    const uint8_t *a = c->in_1_len ? in_1.at : NULL, *b = c->in_2_len ? in_2.at : NULL;
    uint8_t *x = c->room_1_len ? room_1.at : NULL, *y = c->room_2_len ? room_2.at : NULL;
    if (c->function == COMPOSE)
        return vin_plan_compose(&plan, a, c->in_1_len, b, c->in_2_len, x, c->room_1_len);
    return (c->function == READ ? vin_plan_read : vin_plan_read_closed)(&plan, a, c->in_1_len, x, c->room_1_len, y, c->room_2_len);
}

static vin_answer independent_full(const call *c)
{
    const drawn_plan *p = &the_case.plan;
    if (c->function == COMPOSE)
        return as_vin(ind_compose_full(p->words, p->tracks, p->frame_time, p->crc, p->parity, p->crc_label, p->fill_bus, p->kinds,
                                       p->kinds_len, c->in_1, c->in_1_len, c->in_2, c->in_2_len, expected_1, c->room_1_len));
    return as_vin((c->function == READ ? ind_read_full : ind_read_closed_full)(
        p->words, p->tracks, p->frame_time, p->crc, p->parity, p->crc_label, p->fill_bus, p->kinds, p->kinds_len, c->in_1, c->in_1_len,
        expected_1, c->room_1_len, expected_2, c->room_2_len));
}

static vin_answer independent(const call *c)
{
    const drawn_plan *p = &the_case.plan;
    if (p->full)
        return independent_full(c);
    if (c->function == COMPOSE)
        return as_vin(ind_compose(p->words, p->tracks, p->frame_time, p->crc, p->parity, p->kinds, p->kinds_len, c->in_1, c->in_1_len,
                                  c->in_2, c->in_2_len, expected_1, c->room_1_len));
    return as_vin((c->function == READ ? ind_read : ind_read_closed)(
        p->words, p->tracks, p->frame_time, p->crc, p->parity, p->kinds, p->kinds_len, c->in_1, c->in_1_len,
        expected_1, c->room_1_len, expected_2, c->room_2_len));
}

static void lend_in(lent *l, const uint8_t *bytes, size_t length, bool at_end)
{
    lend(l, length, at_end);
    if (length > 0)
        memcpy(l->at, bytes, length);
}

static bool kept(const lent *l, const uint8_t *bytes)
{
    return (l->length == 0 || memcmp(l->at, bytes, l->length) == 0) && lent_untouched(l, l->length);
}

/* Lends everything afresh, calls both, compares. Returns the answer. */
static vin_answer compare(const call *c)
{
    vin_answer ours, theirs;
    bool at_end = one_in(2);
    bool by_plan = the_case.plan.kinds_len == 16 && (c->in_1_len == 0 || c->in_2_len == 0 || c->room_1_len == 0) && one_in(2);
    size_t written_1, written_2;

    lend_in(&kinds, the_case.plan.kinds, the_case.plan.kinds_len, at_end);
    lend_in(&in_1, c->in_1, c->in_1_len, at_end);
    lend_in(&in_2, c->in_2, c->in_2_len, at_end);
    lend(&room_1, c->room_1_len, at_end);
    lend(&room_2, c->room_2_len, at_end);
    memcpy(expected_1, room_1.at, c->room_1_len);
    memcpy(expected_2, room_2.at, c->room_2_len);

    theirs = independent(c);
    ours = by_plan ? library_by_plan(c) : library(c);
    run.calls[called(c)][theirs.number]++;

    if (!same(ours, theirs))
        failed(c, "another answer", ours, theirs);
    written_1 = (size_t)ours.bytes;
    written_2 = 8 * (size_t)ours.times;
    if (!lent_untouched(&room_1, written_1) || !lent_untouched(&room_2, written_2))
        failed(c, "a byte was written outside of what was answered", ours, theirs);
    if (memcmp(room_1.at, expected_1, c->room_1_len) != 0)
        failed(c, "another byte in the first room", ours, theirs);
    if (memcmp(room_2.at, expected_2, c->room_2_len) != 0)
        failed(c, "another byte in the room for times", ours, theirs);
    if (!kept(&kinds, the_case.plan.kinds) || !kept(&in_1, c->in_1) || !kept(&in_2, c->in_2))
        failed(c, "a run that is only read was written", ours, theirs);
    return ours;
}

/* ==== A case ==== */

static vin_answer compose(size_t out_len)
{
    call c = {COMPOSE, the_case.log, the_case.times, the_case.log_len, the_case.times_len, out_len, 0};
    return compare(&c);
}

static vin_answer read_by(enum function function, size_t log_len, size_t times_len)
{
    call c = {function, the_case.capture, NULL, the_case.capture_len, 0, log_len, times_len};
    return compare(&c);
}

/* Both readings with room enough, then once more with rooms around what is needed. */
static void read_both(void)
{
    for (enum function function = READ; function <= READ_CLOSED; function++) {
        size_t room = the_case.capture_len > 30000 && one_in(2) ? ROOM_MAX : VIN_LOG_MAX; /* above the limit room does not help */
        vin_answer a = read_by(function, room, VIN_READ_GROUPS_MAX * VIN_TIME_BYTES);
        if (a.number == 0) {
            size_t log_len = draw_near(a.bytes, VIN_LOG_MAX + 100);
            read_by(function, log_len, draw_near(8 * a.times, 8 * a.times + 20));
        }
    }
}

/* Composing with the room needed, learnt from a first call without any, or with a room around it; what was composed becomes the
 * capture. */
static void compose_around(void)
{
    vin_answer asked = compose(0);
    size_t needed = asked.number == VIN_ROOM ? (size_t)asked.place : 0;
    vin_answer a;
    if (one_in(3))
        compose(draw_near(needed, VIN_COMPOSED_MAX + 100));
    a = compose(needed);
    memcpy(the_case.capture, room_1.at, (size_t)a.bytes);
    the_case.capture_len = (size_t)a.bytes;
}

static void one_case(void)
{
    draw_start(run.seed, run.number);
    draw_plan(&the_case);
    if (the_case.legal && one_in(4)) {
        draw_loose_capture(&the_case);
        if (one_in(4))
            draw_damage(&the_case);
    } else {
        draw_log(&the_case);
        compose_around();
        if (the_case.legal && one_in(2))
            draw_damage(&the_case);
    }
    read_both();
}

/* ==== The whole run ==== */

/* Document 01: "Composing checks 1; the log's length; the items in order, each for 2, 3, 4; then 5 ..; then 6. Reading checks 1, 8; then
 * group by group: .. 9 .. 10 .. 11 .., then 12, then 13 ..; after the last group the cut item, 14, 6, 7." 14 is of the closed reading
 * only. K2: 15 comes before 5 in composing, and before 14 in the readings. K5: the functions that take the whole plan answer the same. */
static const char can_answer[3][17] = {"yyyyyyy........y", "yy....yyyyyyyy.y", "yy....yyyyyyyyyy"};

/* In a run of this many cases every answer that a function can give must occur. */
#define MANY_CASES 20000

/* Whether every answer that can be given occurred, and no other. */
static bool every_answer(uint64_t count)
{
    bool every = true;
    for (int f = 0; f < 2 * FUNCTIONS; f++)
        for (int n = 0; n < 16; n++) {
            bool can = can_answer[f % FUNCTIONS][n] == 'y', occurred = run.calls[f][n] > 0;
            if (occurred == can || (can && count < MANY_CASES))
                continue;
            printf("FAILED: seed %" PRIu64 ": %s %s %d\n", run.seed, names[f], can ? "never answered" : "cannot answer", n);
            every = false;
        }
    return every;
}

static void report(uint64_t count)
{
    printf("%" PRIu64 " cases of seed %" PRIu64 ": no difference\n", count, run.seed);
    printf("%-20s", "answers");
    for (int n = 0; n < 16; n++)
        printf("%9d", n);
    printf("\n");
    for (int f = 0; f < 2 * FUNCTIONS; f++) {
        printf("%-20s", names[f]);
        for (int n = 0; n < 16; n++)
            printf("%9" PRIu64, run.calls[f][n]);
        printf("\n");
    }
}

int main(int argc, char **argv)
{
    uint64_t first, count;
    if (argc != 4) {
        fprintf(stderr, "usage: driver SEED FIRST COUNT\n");
        return 2;
    }
    signal(SIGSEGV, caught);
    signal(SIGBUS, caught);
    signal(SIGILL, caught);
    signal(SIGFPE, caught);
    signal(SIGABRT, caught);
    run.seed = strtoull(argv[1], NULL, 10);
    first = strtoull(argv[2], NULL, 10);
    count = strtoull(argv[3], NULL, 10);
    lent_new(&kinds, 32);
    lent_new(&in_1, DRAWN_CAPTURE_MAX);
    lent_new(&in_2, DRAWN_TIMES_MAX);
    lent_new(&room_1, ROOM_MAX);
    lent_new(&room_2, VIN_READ_GROUPS_MAX * VIN_TIME_BYTES + 200);
    for (run.number = first; run.number < first + count; run.number++)
        one_case();
    report(count);
    return every_answer(count) ? 0 : 1;
}
