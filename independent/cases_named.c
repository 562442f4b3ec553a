/* The named cases, a line a step; crates/cases/stdin says at its top what the lines mean. */
#include <stdlib.h>
#include <string.h>

#include "cases.h"

static plan_numbers p;
static uint32_t log_bit; /* behind the log's items */

/* The line's number behind so many spaces: decimal, or hexadecimal behind an x; 0 if there is none. */
static uint64_t number(const char *line, int spaces)
{
    while (spaces > 0 && line != NULL) {
        line = strchr(line, ' ');
        if (line != NULL)
            line++;
        spaces--;
    }
    if (line == NULL)
        return 0;
    return *line == 'x' ? strtoull(line + 1, NULL, 16) : strtoull(line, NULL, 10);
}

static uint32_t small(const char *line, int spaces)
{
    return (uint32_t)number(line, spaces);
}

/* ==== What is lent ==== */

static void plan_line(const char *line)
{
    uint64_t digits = number(line, 6);
    p = plan(small(line, 1), small(line, 2), small(line, 3), small(line, 4), small(line, 5));
    for (int bus = 0; bus < 16; bus++)
        p.kinds[bus] = (digits >> (60 - 4 * bus)) & 15;
}

static void put_items(const char *line)
{
    for (uint32_t n = 0; n < small(line, 1); n++)
        log_bit = put(log_bit, small(line, 2), number(line, 3) + n);
}

static void put_fill(const char *line)
{
    uint32_t words = small(line, 1);
    for (uint32_t place = 0; place < small(line, 2); place++)
        word(place, place % words == 0 ? 0xFAF320 : fill_of(p));
}

static void put_words(const char *line)
{
    for (uint32_t n = 0; n < small(line, 1); n++)
        word(small(line, 2) + n, small(line, 3) + n);
}

/* ==== The calls ==== */

/* "On success: number 0, place 0 and the lengths written"; "A refusal returns number, place and lengths 0". K8: and a second place. */
static int is_asked(ind_answer a, uint64_t asked, uint64_t value, uint64_t second)
{
    if (a.number != asked || a.second != second)
        return 0;
    if (asked == 0)
        return a.place == 0 && a.bytes == value;
    return a.place == value && a.bytes == 0 && a.times == 0;
}

static void say(char letter, result r, uint64_t asked, uint64_t value, uint64_t second)
{
    printf(" %c %" PRIu32 " %" PRIu64 " %" PRIu64 " %" PRIu64 " %" PRIu64 " %" PRIu64 " %" PRIu64, letter, r.answer.number,
           r.answer.place, r.answer.second, r.answer.bytes, r.answer.times, r.first, r.second);
    if (!is_asked(r.answer, asked, value, second))
        printf(" differs");
}

static void compose_line(const char *line)
{
    say('c', composing(p, small(line, 1), small(line, 2), small(line, 3)), number(line, 4), number(line, 5), 0);
    take_composed(small(line, 3));
}

static void read_line(const char *line)
{
    for (int closed = 0; closed < 2; closed++)
        say(closed ? 'x' : 'r', reading(closed, p, small(line, 1), small(line, 2), small(line, 3)), number(line, 4 + 3 * closed),
            number(line, 5 + 3 * closed), number(line, 6 + 3 * closed));
}

static void step(const char *line)
{
    switch (*line) {
    case '#': break;
    case '=': printf("%s:", line + 1); break;
    case '\0': printf("\n"); break;
    case 'p': plan_line(line); break;
    case 'y': p = with_label(p, small(line, 1), small(line, 2)); break;
    case 'k': p.kinds_len = small(line, 1); break;
    case 'l': memset(log_in, 0, sizeof log_in), log_bit = 0; break;
    case 'i': put_items(line); break;
    case 't': put_time(small(line, 1), number(line, 2)); break;
    case 'f': put_fill(line); break;
    case 'w':
        for (int n = 1; n <= 4; n++)
            word((uint32_t)n, small(line, n));
        break;
    case 'n': put_words(line); break;
    case 'v': capture[small(line, 1)] ^= (uint8_t)small(line, 2); break;
    case 'c': compose_line(line); break;
    case 'r': read_line(line); break;
    default: printf(" unknown"); /* a letter that says nothing is no case */
    }
}

void named_cases(void)
{
    char line[256];
    while (fgets(line, sizeof line, stdin) != NULL) {
        line[strcspn(line, "\n")] = '\0';
        step(line);
    }
}
