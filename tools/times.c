#include "times.h"

#include <stdio.h>
#include <stdlib.h>
#include <string.h>

#include "../include/vinculampe.h"
#include "text.h"

enum {
    TEXT_MOST = 1 << 20, /* bytes of a file of times */
    LINE_MOST = 21       /* bytes of a line that we write: 20 digits and the line feed */
};

uint64_t time_at(const uint8_t *times, size_t index)
{
    uint64_t time = 0;
    for (size_t n = 0; n < VIN_TIME_BYTES; n++)
        time = time << 8 | times[index * VIN_TIME_BYTES + n];
    return time;
}

static void put_time(uint8_t *times, size_t index, uint64_t time)
{
    for (size_t n = VIN_TIME_BYTES; n > 0; n--, time >>= 8)
        times[index * VIN_TIME_BYTES + n - 1] = (uint8_t)time;
}

/* A number that is too large for 64 bits is given as the largest, which is refused by 5 as it should be. */
static uint64_t number(const char *digits)
{
    uint64_t value = 0;
    for (; *digits; digits++) {
        uint64_t digit = (uint64_t)(*digits - '0');
        if (value > (UINT64_MAX - digit) / 10)
            return UINT64_MAX;
        value = 10 * value + digit;
    }
    return value;
}

static bool take_line(const lines *at, char *line, times_file *times)
{
    char *word, whole[64];
    snprintf(whole, sizeof whole, "%s", line + strspn(line, " \t"));
    size_t count = cut_words(line, &word, 1), index = times->bytes.length / VIN_TIME_BYTES;
    if (count == 0)
        return true;
    if (count > 1 || strspn(word, "0123456789") != strlen(word)) {
        whole[strcspn(whole, "\r")] = 0;
        complain_line(at, "\"%s\" is not one decimal number of microseconds", show(whole).text);
        return false;
    }
    put_time(times->bytes.bytes, index, number(word));
    times->bytes.length += VIN_TIME_BYTES;
    times->line_numbers[index] = at->number;
    times->written[index] = word;
    return true;
}

bool read_times(const char *name, times_file *times)
{
    *times = (times_file){name, {NULL, 0}, NULL, NULL, {NULL, 0}};
    if (!read_text(name, TEXT_MOST, "these are no times: one decimal number of microseconds a line",
                   &times->text))
        return false;
    size_t most = times->text.length / 2 + 1; /* a time takes two bytes of text or more, but for the last */
    times->bytes.bytes = malloc(most * VIN_TIME_BYTES);
    times->line_numbers = malloc(most * sizeof *times->line_numbers);
    times->written = malloc(most * sizeof *times->written);
    if (!times->bytes.bytes || !times->line_numbers || !times->written)
        return !out_of_memory(NULL);
    lines at = lines_of(name, &times->text);
    for (char *line; (line = next_line(&at));)
        if (!take_line(&at, line, times))
            return false;
    return true;
}

void drop_times(times_file *times)
{
    free(times->bytes.bytes);
    free(times->line_numbers);
    free((void *)times->written);
    free(times->text.bytes);
}

bool times_text(const uint8_t *times, size_t count, run *text)
{
    text->length = 0;
    text->bytes = malloc(count * LINE_MOST + 1);
    if (out_of_memory(text->bytes))
        return false;
    for (size_t n = 0; n < count; n++)
        text->length += (size_t)sprintf((char *)text->bytes + text->length, "%llu\n",
                                        (unsigned long long)time_at(times, n));
    return true;
}
