#include <stdlib.h>

#include "../commands.h"
#include "../hints.h"
#include "../outputs.h"
#include "../refusal.h"
#include "../words.h"

enum { TIMES_ROOM = VIN_READ_GROUPS_MAX * VIN_TIME_BYTES };

static int write_words(const uint32_t *row, const uint8_t *times, vin_answer a, const arguments *given)
{
    run words = {NULL, 0}, text = {NULL, 0};
    const char *times_to = given->values[OPT_TIMES_OUT];
    bool good = words_out(row, a.bytes, given->values[OPT_TEXT], &words)
                && (!times_to || times_text(times, a.times, &text));
    output outputs[2] = {{given->values[OPT_OUT], words.bytes, words.length},
                         {times_to, text.bytes, text.length}};
    good = good && write_files(outputs, times_to ? 2 : 1);
    free(words.bytes);
    free(text.bytes);
    return good ? DONE : MISUSE;
}

static int words_call(const call *c, const arguments *given)
{
    uint32_t *row = malloc(VIN_WORDS_MAX * sizeof *row);
    uint8_t *times = malloc(TIMES_ROOM);
    int status = MISUSE;
    if (!out_of_memory(row) && !out_of_memory(times)) {
        vin_answer a = vin_plan_read_words(&c->plan.plan, c->capture.bytes, c->capture.length, row,
                                           VIN_WORDS_MAX, times, TIMES_ROOM);
        if (a.number == VIN_DONE)
            status = write_words(row, times, a, given);
        else {
            say_reading_refused(c, a);
            status = REFUSED;
        }
    }
    free(row);
    free(times);
    return status;
}

static int run_words(const arguments *given)
{
    call c = {0};
    c.capture_name = given->files[1];
    int status = MISUSE;
    if (read_plan(given->files[0], &c.plan) && read_file(c.capture_name, VIN_CAPTURE_MAX, &c.capture))
        status = words_call(&c, given);
    if (status == DONE)
        say_hints("note", c.capture_name, &c.plan.plan, &c.capture);
    drop_call(&c);
    return status;
}

static const option_row options[] = {
    {OPT_OUT, OUTPUT, "WORDS", "the words, four bytes each, most significant first"},
    {OPT_TEXT, FLAG, NULL, "the words as text, six hexadecimal digits a line"},
    {OPT_TIMES_OUT, OUTPUT, "FILE", "the frame times"},
    {OPTIONS, FLAG, NULL, NULL},
};

const command words_command = {
    .name = "words",
    .usage = "PLAN CAPTURE -o WORDS [--text] [--times-out FILE]",
    .about = "take a capture's data slots out of their frames and tracks",
    .more =
        "\nThe first half of read: the words of the data slots in dealt order, as stored, fill among them.\n"
        "Frames, parity, CRC and frame times are tested, the words themselves are not. vin items is the\n"
        "other half.\n",
    .least = 2,
    .most = 2,
    .output = NEEDS_OUT,
    .options = options,
    .run = run_words,
};
