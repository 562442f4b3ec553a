#include <stdlib.h>

#include "../commands.h"
#include "../outputs.h"
#include "../words.h"

static int items_call(const plan_file *plan, const words_file *words, const char *to)
{
    run log = {malloc(VIN_LOG_MAX), 0};
    if (out_of_memory(log.bytes))
        return MISUSE;
    vin_answer a = vin_plan_read_items(&plan->plan, words->row, words->count, log.bytes, VIN_LOG_MAX);
    int status = REFUSED;
    log.length = a.bytes;
    if (a.number != VIN_DONE)
        say_words_refused(plan, words, a);
    else
        status = write_one(to, &log);
    free(log.bytes);
    return status;
}

static int run_items(const arguments *given)
{
    plan_file plan;
    words_file words = {NULL, NULL, 0, NULL};
    int status = MISUSE;
    if (read_plan(given->files[0], &plan) && read_words(given->files[1], &words))
        status = items_call(&plan, &words, given->values[OPT_OUT]);
    drop_words(&words);
    return status;
}

static const option_row options[] = {
    {OPT_OUT, OUTPUT, "LOG", "the log"},
    {OPTIONS, FLAG, NULL, NULL},
};

const command items_command = {
    .name = "items",
    .usage = "PLAN WORDS -o LOG",
    .about = "turn words, as words makes them, into a log",
    .more =
        "\nThe second half of read: fill is passed over on any bus, and with parity no notice is taken of\n"
        "bit 1. WORDS are bytes or text; in a text what stands behind # is a comment. A refusal's place\n"
        "counts the words.\n",
    .least = 2,
    .most = 2,
    .output = NEEDS_OUT,
    .options = options,
    .run = run_items,
};
