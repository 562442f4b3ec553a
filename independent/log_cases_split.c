/* slots PLAN CAPTURE WORDS TIMES -> NUMBER VALUE MADE SECOND ENTRIES ROW
 * items PLAN WORDS ROOM -> NUMBER VALUE MADE SECOND
 *
 * The calls of a reading's halves (document 02, K3). */
#include <string.h>

#include "log_cases.h"

enum { WORDS_ROOM = RUN_ROOM / 4 };

/* Words as runs of four bytes each, and back. */
static size_t gather(const run *r, uint32_t *words)
{
    for (size_t n = 0; n < r->length / 4; n++)
        words[n] = (uint32_t)r->bytes[4 * n] << 24 | (uint32_t)r->bytes[4 * n + 1] << 16 | (uint32_t)r->bytes[4 * n + 2] << 8
                   | r->bytes[4 * n + 3];
    return r->length / 4;
}

static void spread(const uint32_t *words, size_t count, run *r)
{
    r->length = 4 * count;
    for (size_t n = 0; n < r->length; n++)
        r->bytes[n] = (uint8_t)(words[n / 4] >> (24 - 8 * (n % 4)));
}

void slots_line(const char *line, const char *asked)
{
    static run kinds, capture, made, times;
    static uint32_t words[WORDS_ROOM];
    size_t room = (size_t)number_field(line, 10);
    ind_answer a;
    run_field(line, 8, &kinds);
    run_field(line, 9, &capture);
    room_field(line, 11, &times);
    memset(words, 0xA5, sizeof words);
    a = ind_read_words(PLAN_FIELDS(line), kinds.bytes, kinds.length, capture.bytes, capture.length, words, room, times.bytes, times.length);
    spread(words, room, &made);
    say_found("slots", a, 4, &made, asked);
    say_times(a.times, &times, asked, 5);
    printf("\n");
}

void items_line(const char *line, const char *asked)
{
    static run kinds, bytes, out;
    static uint32_t words[WORDS_ROOM];
    ind_answer a;
    run_field(line, 8, &kinds);
    run_field(line, 9, &bytes);
    room_field(line, 10, &out);
    a = ind_read_items(PLAN_FIELDS(line), kinds.bytes, kinds.length, words, gather(&bytes, words), out.bytes, out.length);
    say_found("items", a, 1, &out, asked);
    printf("\n");
}
