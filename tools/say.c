#include "say.h"

#include <errno.h>
#include <stdarg.h>
#include <stdbool.h>
#include <stdint.h>
#include <stdio.h>
#include <string.h>

static void say(const char *format, va_list values, const char *reason)
{
    fputs("vin: ", stderr);
    vfprintf(stderr, format, values);
    if (reason)
        fprintf(stderr, ": %s", reason);
    fputc('\n', stderr);
}

void complain(const char *format, ...)
{
    va_list values;
    va_start(values, format);
    say(format, values, NULL);
    va_end(values);
}

void complain_errno(const char *format, ...)
{
    const char *reason = strerror(errno);
    va_list values;
    va_start(values, format);
    say(format, values, reason);
    va_end(values);
}

const char *plural(uint64_t count)
{
    return count == 1 ? "" : "s";
}

static bool is_plain(char c)
{
    return c >= ' ' && c <= '~';
}

shown show(const char *word)
{
    shown s = {{0}};
    const size_t most = sizeof s.text - 1;
    size_t n = 0;
    for (; n < most && word[n]; n++)
        s.text[n] = is_plain(word[n]) ? word[n] : '?';
    if (word[n])
        memcpy(s.text + most - 2, "..", 2);
    return s;
}

/* How many bytes the letter beyond ASCII has that stands here in UTF-8; 0 if none does that can be shown. */
static size_t letter(const char *at)
{
    const uint8_t *b = (const uint8_t *)at;
    size_t more = b[0] >= 0xC2 && b[0] < 0xE0   ? 1
                  : b[0] >= 0xE0 && b[0] < 0xF0 ? 2
                  : b[0] >= 0xF0 && b[0] < 0xF5 ? 3
                                                : 0;
    for (size_t n = 1; n <= more; n++)
        if ((b[n] & 0xC0) != 0x80)
            return 0;
    bool control = b[0] == 0xC2 && b[1] < 0xA0;                  /* U+0080 to U+009F */
    bool turns = b[0] == 0xE2 && (b[1] == 0x80 || b[1] == 0x81); /* marks of direction and of lines */
    return more == 0 || control || turns ? 0 : more + 1;
}

shown_name show_name(const char *name)
{
    shown_name s = {{0}};
    const size_t most = sizeof s.text - 1;
    size_t length = strlen(name), n = 0;
    if (length > most) {
        memcpy(s.text, "..", 2);
        n = 2;
        name += length - (most - 2);
        while ((*name & 0xC0) == 0x80) /* not inside a letter */
            name++;
    }
    while (*name) {
        size_t bytes = letter(name);
        if (bytes > 0)
            memcpy(s.text + n, name, bytes);
        else
            s.text[n] = is_plain(*name) ? *name : '?';
        n += bytes ? bytes : 1;
        name += bytes ? bytes : 1;
    }
    return s;
}
