/* Compares functions of the library (include/vinculampe.h) with those of the independent implementation, case by case: the answers,
 * every lent byte, the bytes around, and that a refusal changes nothing.
 *
 *     log_calls SEED FIRST COUNT [FUNCTION]      cases FIRST to FIRST + COUNT - 1 of that seed, of each function or of one
 */
#include "calls.h"

#include <inttypes.h>
#include <signal.h>
#include <stdio.h>
#include <stdlib.h>
#include <string.h>

#include "lent.h"

enum { NUMBERS = 21 };

static struct {
    uint64_t seed, number;
    const compared *function;
    uint64_t calls[NUMBERS]; /* by answer */
} run;

static lent lents[RUNS_MOST];
static uint8_t *before[RUNS_MOST], *expected[RUNS_MOST]; /* of run_most bytes each */

/* ==== A failure ==== */

uint64_t case_number(void)
{
    return run.number;
}

/* What stands before its name: a law, and damage, is no function's name. */
static const char *prefix(void)
{
    static const char *const others[] = {"laws", "halves", "dropouts", "account", "twisted", "cuttings", "buses"};
    for (size_t n = 0; n < sizeof others / sizeof *others; n++)
        if (strcmp(run.function->name, others[n]) == 0)
            return "";
    return "vin_";
}

static void say_repeat(void)
{
    printf("  to repeat it: tests/abi/run --case %" PRIu64 " %" PRIu64 " %s\n", run.seed, run.number, run.function->name);
}

static void say_outcome(const char *who, const outcome *o)
{
    printf("  %s: number %" PRIu64 " place %" PRIu64 " second %" PRIu64 " bytes %" PRIu64 " and", who, o->of[NUMBER], o->of[PLACE],
           o->of[SECOND], o->of[BYTES]);
    for (int n = MORE; n < VALUES; n++)
        printf(" %" PRIu64, o->of[n]);
    printf("\n");
}

static void failed(const call *c, const char *why, const outcome *ours, const outcome *theirs)
{
    printf("FAILED: seed %" PRIu64 " case %" PRIu64 ": %s%s: %s\n  lengths:", run.seed, run.number, prefix(), run.function->name, why);
    for (size_t n = 0; n < c->count; n++)
        printf(" %zu", c->runs[n].length);
    printf(", numbers:");
    for (int n = 0; n < NUMBERS_MOST; n++)
        printf(" %" PRIu64, c->numbers[n]);
    printf("\n");
    say_outcome("library", ours);
    say_outcome("independent", theirs);
    for (size_t n = 0; n < c->count; n++)
        for (size_t at = 0; at < c->runs[n].length; at++)
            if (lents[n].at[at] != expected[n][at]) {
                printf("  byte %zu of run %zu: library %02X, independent %02X\n", at, n, lents[n].at[at], expected[n][at]);
                break;
            }
    say_repeat();
    exit(1);
}

void law_broken(const char *law)
{
    printf("FAILED: seed %" PRIu64 " case %" PRIu64 ": this does not hold: %s\n", run.seed, run.number, law);
    say_repeat();
    exit(1);
}

void law_answered(uint64_t number)
{
    if (number < NUMBERS)
        run.calls[number]++;
}

/* A byte beyond what was lent is a fault of the processor. */
static void caught(int signal)
{
    printf("FAILED: seed %" PRIu64 " case %" PRIu64 ": %s%s: signal %d\n", run.seed, run.number, prefix(), run.function->name, signal);
    say_repeat();
    fflush(stdout);
    _Exit(1);
}

/* ==== A call of both ==== */

static bool same_bytes(const uint8_t *one, const uint8_t *other, size_t length)
{
    return length == 0 || memcmp(one, other, length) == 0;
}

/* Lends a run; before and expected hold what it holds. */
static void lend_run(const lent_run *r, size_t n, bool at_end)
{
    lend(&lents[n], r->length, at_end);
    if (r->bytes != NULL && r->length > 0)
        memcpy(lents[n].at, r->bytes, r->length);
    memcpy(before[n], lents[n].at, r->length);
    memcpy(expected[n], lents[n].at, r->length);
}

/* How many of the run's bytes may have been written by a call with this answer. */
static size_t written(const lent_run *r, const outcome *o)
{
    if (r->role == STATE)
        return r->length;
    return r->role == READ_ONLY ? 0 : (size_t)o->of[r->counted_by] * r->unit;
}

/* What is wrong with the run after the call, or NULL. */
static const char *fault_of(const lent_run *r, size_t n, const outcome *o)
{
    size_t front = written(r, o);
    if (front > r->length)
        return "more is answered than was lent";
    if (!lent_untouched(&lents[n], r->length))
        return "a byte was written outside of what was lent";
    if (!same_bytes(lents[n].at + front, before[n] + front, r->length - front))
        return r->role == READ_ONLY ? "a run that is only read was written" : "a byte was written outside of what was answered";
    return same_bytes(lents[n].at, expected[n], r->length) ? NULL : "another byte";
}

outcome compare(const call *c)
{
    uint8_t *ours_at[RUNS_MOST], *theirs_at[RUNS_MOST];
    outcome ours, theirs;
    bool at_end = one_in(2);
    for (size_t n = 0; n < c->count; n++) {
        lend_run(&c->runs[n], n, at_end);
        ours_at[n] = lents[n].at;
        theirs_at[n] = expected[n];
    }
    theirs = c->independent(c, theirs_at);
    ours = c->library(c, ours_at);
    if (theirs.of[NUMBER] < NUMBERS)
        run.calls[theirs.of[NUMBER]]++;
    if (memcmp(&ours, &theirs, sizeof ours) != 0)
        failed(c, "another answer", &ours, &theirs);
    for (size_t n = 0; n < c->count; n++) {
        const char *fault = fault_of(&c->runs[n], n, &ours);
        if (fault != NULL)
            failed(c, fault, &ours, &theirs);
    }
    return ours;
}

/* ==== The whole run ==== */

/* In a run of this many cases every answer that a function can give must occur. */
#define MANY_CASES 20000

/* Whether every answer that can be given occurred, and no other. */
static bool every_answer(uint64_t count)
{
    bool every = true;
    for (size_t n = 0; n < NUMBERS; n++) {
        bool can = n < strlen(run.function->can_answer) && run.function->can_answer[n] == 'y', occurred = run.calls[n] > 0;
        if (occurred == can || (can && count < MANY_CASES))
            continue;
        printf("FAILED: seed %" PRIu64 ": %s%s %s %zu\n", run.seed, prefix(), run.function->name, can ? "never answered" : "cannot answer", n);
        every = false;
    }
    return every;
}

static void report(uint64_t count)
{
    printf("%" PRIu64 " cases of seed %" PRIu64 ", %s%s: no difference; answers", count, run.seed, prefix(), run.function->name);
    for (int n = 0; n < NUMBERS; n++)
        if (run.calls[n] > 0)
            printf(" %d: %" PRIu64, n, run.calls[n]);
    printf("\n");
}

/* Each function draws from its own numbers: the seed and the first letters of its name. */
static uint64_t seed_of(const compared *f)
{
    uint64_t seed = run.seed;
    for (const char *letter = f->name; *letter; letter++)
        seed = 31 * seed + (uint64_t)*letter;
    return seed;
}

static bool run_function(const compared *f, uint64_t first, uint64_t count)
{
    run.function = f;
    memset(run.calls, 0, sizeof run.calls);
    for (run.number = first; run.number < first + count; run.number++) {
        draw_start(seed_of(f), run.number);
        f->one_case();
    }
    report(count);
    return every_answer(count);
}

int main(int argc, char **argv)
{
    bool good = true, found = false;
    if (argc != 4 && argc != 5) {
        fprintf(stderr, "usage: %s SEED FIRST COUNT [FUNCTION]\n", argv[0]);
        return 2;
    }
    signal(SIGSEGV, caught);
    signal(SIGBUS, caught);
    signal(SIGILL, caught);
    signal(SIGFPE, caught);
    signal(SIGABRT, caught);
    run.seed = strtoull(argv[1], NULL, 10);
    for (size_t n = 0; n < RUNS_MOST; n++) {
        lent_new(&lents[n], run_most);
        before[n] = malloc(run_most);
        expected[n] = malloc(run_most);
        if (before[n] == NULL || expected[n] == NULL)
            return 2;
    }
    for (size_t n = 0; n < function_count; n++)
        if (argc == 4 || strcmp(functions[n]->name, argv[4]) == 0) {
            found = true;
            good = run_function(functions[n], strtoull(argv[2], NULL, 10), strtoull(argv[3], NULL, 10)) && good;
        }
    if (!found)
        fprintf(stderr, "%s: no function %s\n", argv[0], argv[4]);
    return good && found ? 0 : 1;
}
