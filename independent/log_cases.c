/* The named cases of the functions on logs and of some on captures, a call a line; crates/log_cases/stdin says at its top what the lines mean. */
#include "log_cases.h"

#include <stdlib.h>
#include <string.h>

/* ==== Fields ==== */

const char *field(const char *line, int spaces)
{
    for (; spaces > 0 && *line; line++)
        spaces -= *line == ' ';
    return line;
}

uint64_t number_field(const char *line, int spaces)
{
    line = field(line, spaces);
    return *line == 'x' ? strtoull(line + 1, NULL, 16) : strtoull(line, NULL, 10);
}

uint32_t small_field(const char *line, int spaces)
{
    return (uint32_t)number_field(line, spaces);
}

static int digit(char letter)
{
    if (letter >= '0' && letter <= '9')
        return letter - '0';
    return letter >= 'A' && letter <= 'F' ? letter - 'A' + 10 : -1;
}

static void put_byte(run *r, uint8_t byte)
{
    if (r->length < RUN_ROOM)
        r->bytes[r->length++] = byte;
}

/* Bytes of two digits each; behind * how often the part since the last comma stands there. */
void run_field(const char *line, int spaces, run *r)
{
    size_t part = 0;
    r->length = 0;
    for (line = field(line, spaces); *line && *line != ' ';) {
        if (digit(*line) >= 0 && digit(line[1]) >= 0) {
            put_byte(r, (uint8_t)(16 * digit(line[0]) + digit(line[1])));
            line += 2;
        } else if (*line == '*') {
            char *behind;
            size_t size = r->length - part, often = strtoul(line + 1, &behind, 10);
            for (size_t more = size * (often - 1); more > 0; more--)
                put_byte(r, r->bytes[r->length - size]);
            line = behind;
        } else {
            part = r->length; /* a comma; or -, no bytes */
            line++;
        }
    }
}

void room_field(const char *line, int spaces, run *r)
{
    r->length = (size_t)number_field(line, spaces);
    memset(r->bytes, 0xA5, sizeof r->bytes);
}

/* ==== What is said ==== */

/* Below 4294967291, so that no sum wraps. */
uint64_t digest_of(const run *r)
{
    uint64_t digest = 0;
    for (size_t n = 0; n < r->length; n++)
        digest = (digest * 31 + r->bytes[n]) % UINT64_C(4294967291);
    return digest;
}

/* "On success: number 0, place 0 and the lengths written"; "A refusal returns number, place and lengths 0". */
bool is_asked(ind_answer a, uint64_t second, const char *asked)
{
    uint64_t value = number_field(asked, 2);
    if (a.number != number_field(asked, 1) || a.second != second)
        return false;
    if (a.number == 0)
        return a.place == 0 && a.bytes == value;
    return a.place == value && a.bytes == 0 && a.times == 0;
}

bool is_made(uint64_t bytes, const run *out, const char *asked)
{
    static run made;
    run_field(asked, 3, &made);
    return bytes == made.length && memcmp(out->bytes, made.bytes, made.length) == 0;
}

void say_unless(bool good)
{
    if (!good)
        printf(" differs");
}

static void say_answer(const char *name, ind_answer a, size_t unit, uint64_t second, const run *out, const char *asked)
{
    printf("%s %" PRIu32 " %" PRIu64 " %" PRIu64 " %" PRIu64 " %" PRIu64 " %" PRIu64, name, a.number, a.place, a.second, a.bytes, a.times,
           digest_of(out));
    say_unless(is_asked(a, second, asked));
    say_unless(is_made(unit * a.bytes, out, asked));
}

void say_call(const char *name, ind_answer a, const run *out, const char *asked)
{
    say_answer(name, a, 1, 0, out, asked);
}

void say_found(const char *name, ind_answer a, size_t unit, const run *out, const char *asked)
{
    say_answer(name, a, unit, number_field(asked, 4), out, asked);
}

void say_times(uint64_t entries, const run *times, const char *asked, int spaces)
{
    static run row;
    run_field(asked, spaces + 1, &row);
    printf(" %" PRIu64, digest_of(times));
    say_unless(entries == number_field(asked, spaces) && row.length <= times->length && memcmp(times->bytes, row.bytes, row.length) == 0);
}

void say_made(const char *name, ind_answer a, const run *out, const char *asked)
{
    say_call(name, a, out, asked);
    printf("\n");
}

/* ==== The calls ==== */

static const struct {
    const char *name;
    void (*line)(const char *line, const char *asked);
} calls[] = {{"pick ", pick_line}, {"join ", join_line}, {"shift ", shift_line}, {"profile ", profile_line}, {"replay ", replay_line},
             {"slots ", slots_line}, {"items ", items_line}, {"salvage ", salvage_line}, {"cut ", cut_line},
             {"add ", add_line}, {"end ", end_line}};

static void step(const char *line)
{
    const char *asked = strstr(line, "->");
    if (*line == '\0' || *line == '#')
        return;
    for (size_t n = 0; n < sizeof calls / sizeof *calls; n++)
        if (asked != NULL && strncmp(line, calls[n].name, strlen(calls[n].name)) == 0) {
            calls[n].line(line, asked);
            return;
        }
    printf("unknown\n"); /* a line that says nothing is no case */
}

int main(void)
{
    static char line[4096];
    while (fgets(line, sizeof line, stdin) != NULL) {
        line[strcspn(line, "\n")] = '\0';
        step(line);
    }
    return 0;
}
