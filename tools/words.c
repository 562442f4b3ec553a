#include "words.h"

#include <inttypes.h>
#include <stdio.h>
#include <stdlib.h>
#include <string.h>

#include "text.h"
#include "walk.h"

enum {
    WORD_BYTES = 4,
    LINE_BYTES = 7,      /* of a line that we write: six digits and the line feed */
    TEXT_MOST = 1 << 23, /* bytes: VIN_WORDS_MAX lines have 2446675, comments and blanks may stand in it */
};

/* ==== A file of words ==== */

static uint32_t word_of(const uint8_t *at)
{
    return (uint32_t)at[0] << 24 | (uint32_t)at[1] << 16 | (uint32_t)at[2] << 8 | at[3];
}

static bool take_bytes(const run *file, words_file *to)
{
    to->count = file->length / WORD_BYTES;
    if (file->length % WORD_BYTES != 0) {
        complain("%s: %zu bytes are not whole words of four bytes", input_name(to->name).text, file->length);
        return false;
    }
    for (size_t n = 0; n < to->count; n++)
        to->row[n] = word_of(file->bytes + WORD_BYTES * n);
    return true;
}

static bool take_line(const lines *at, char *line, words_file *to)
{
    char *word;
    shown whole = show(line + strspn(line, " \t"));
    size_t count = cut_words(line, &word, 1);
    if (count == 0)
        return true;
    if (count > 1 || strlen(word) > 8 || strspn(word, "0123456789ABCDEFabcdef") != strlen(word)) {
        complain_line(at, "\"%s\" is not one word of six hexadecimal digits", whole.text);
        return false;
    }
    to->line_numbers[to->count] = at->number;
    to->row[to->count++] = (uint32_t)strtoul(word, NULL, 16);
    return true;
}

static bool take_text(const run *text, words_file *to)
{
    to->line_numbers = malloc((text->length / 2 + 1) * sizeof *to->line_numbers);
    if (out_of_memory(to->line_numbers))
        return false;
    lines at = lines_of(to->name, text);
    for (char *line; (line = next_line(&at));)
        if (!take_line(&at, line, to))
            return false;
    return true;
}

bool read_words(const char *name, words_file *to)
{
    run file;
    *to = (words_file){name, NULL, 0, NULL};
    if (!read_file(name, TEXT_MOST, &file))
        return false;
    bool bytes = file.length > 0 && file.bytes[0] == 0;
    if (!bytes
        && !as_text(name, TEXT_MOST,
                    "these are no words: six hexadecimal digits a line, or four bytes a word", &file))
        return false;
    to->row = malloc((file.length / 2 + 1) * sizeof *to->row); /* a line has two bytes or more */
    bool good = !out_of_memory(to->row) && (bytes ? take_bytes(&file, to) : take_text(&file, to));
    free(file.bytes);
    return good;
}

void drop_words(words_file *words)
{
    free(words->row);
    free(words->line_numbers);
}

bool words_out(const uint32_t *row, size_t count, bool as_text, run *to)
{
    to->length = 0;
    to->bytes = malloc(count * LINE_BYTES + 1);
    if (out_of_memory(to->bytes))
        return false;
    for (size_t n = 0; n < count; n++) {
        uint8_t *at = to->bytes + to->length;
        if (as_text)
            to->length += (size_t)sprintf((char *)at, "%06" PRIX32 "\n", row[n]);
        else
            for (int shift = 24; shift >= 0; shift -= 8, to->length++)
                *at++ = (uint8_t)(row[n] >> shift);
    }
    return true;
}

/* ==== Refusals ==== */

/* "word 3 (line 5)", or where its bytes begin. */
static place_text tell_word(const words_file *words, uint64_t place)
{
    place_text t;
    if (words->line_numbers)
        snprintf(t.text, sizeof t.text, "word %" PRIu64 " (line %zu)", place, words->line_numbers[place]);
    else
        snprintf(t.text, sizeof t.text, "word %" PRIu64 " (byte %" PRIu64 ")", place, WORD_BYTES * place);
    return t;
}

/* Walks to the word and says why it breaks what was before it; or that the end cuts the item that it starts.
 */
static void bad_word(const vin_plan *plan, const words_file *words, uint64_t place, char *why)
{
    walk w = {AWAIT_NOTHING, {0}, 0, 0, 0};
    for (uint64_t n = 0; n < words->count && words->row[n] <= 0xFFFFFF; n++) {
        stored s = word_alone(plan, words->row[n], n);
        walk before = w;
        if (walk_word(&w, plan, &s) == STEP_BREAKS && n == place) {
            tell_break(plan, &before, &s, why);
            return;
        }
    }
    if (words->row[place] > 0xFFFFFF)
        snprintf(why, WHY_MOST, "it is above 24 bits");
    else if (is_unfinished(&w) && w.first.place == place)
        tell_cut(plan, &w, why);
    else
        snprintf(why, WHY_MOST, "%s", vin_text(VIN_DATA_WORD));
}

void say_words_refused(const plan_file *plan, const words_file *words, vin_answer a)
{
    shown_name name = input_name(words->name);
    char why[WHY_MOST];
    switch (a.number) {
    case VIN_PLAN: say_illegal(plan); return;
    case VIN_CAPTURE:
        complain("%s: refused by 8 at %zu: there are %zu words, and at most %d are taken", name.text,
                 words->count, words->count, VIN_WORDS_MAX);
        return;
    case VIN_ROOM:
        complain("%s: refused by 6 at %" PRIu64 ": the log would have %" PRIu64
                 " bytes, and a log has at most %d",
                 name.text, a.place, a.place, VIN_LOG_MAX);
        return;
    case VIN_DATA_WORD: bad_word(&plan->plan, words, a.place, why); break;
    case VIN_NOTICE: tell_open(word_alone(&plan->plan, words->row[a.place], a.place).bus, why); break;
    default: snprintf(why, WHY_MOST, "%s", vin_text(a.number));
    }
    complain("%s: refused by %" PRIu32 " at %s: %06" PRIX32 ": %s", name.text, a.number,
             tell_word(words, a.place).text, words->row[a.place], why);
}
