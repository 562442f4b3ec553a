#define _POSIX_C_SOURCE 200809L
#include "text.h"

#include <stdarg.h>
#include <stdio.h>
#include <stdlib.h>
#include <string.h>

static void pass_over_mark(run *text)
{
    static const uint8_t mark[] = {0xEF, 0xBB, 0xBF};
    if (text->length < sizeof mark || memcmp(text->bytes, mark, sizeof mark) != 0)
        return;
    text->length -= sizeof mark;
    memmove(text->bytes, text->bytes + sizeof mark, text->length);
}

bool read_text(const char *name, size_t most, const char *what, run *text)
{
    return read_file(name, most, text) && as_text(name, most, what, text);
}

bool as_text(const char *name, size_t most, const char *what, run *text)
{
    if (text->length > most || memchr(text->bytes, 0, text->length)) {
        complain("%s: %s", input_name(name).text, what);
        free(text->bytes);
        *text = (run){NULL, 0};
        return false;
    }
    pass_over_mark(text);
    text->bytes[text->length] = 0; /* read_file has room for one byte more */
    return true;
}

lines lines_of(const char *name, const run *text)
{
    return (lines){input_name(name), 0, (char *)text->bytes};
}

char *next_line(lines *at)
{
    char *here = at->rest;
    if (!here || !*here)
        return NULL;
    char *end = strchr(here, '\n');
    at->rest = end ? end + 1 : NULL;
    if (end)
        *end = 0;
    at->number++;
    here[strcspn(here, "#")] = 0;
    return here;
}

size_t cut_words(char *line, char **words, size_t most)
{
    static const char blanks[] = " \t\r";
    size_t count = 0;
    char *rest = NULL;
    for (char *word = strtok_r(line, blanks, &rest); word && count <= most;
         word = strtok_r(NULL, blanks, &rest)) {
        if (count < most)
            words[count] = word;
        count++;
    }
    return count;
}

void complain_line(const lines *at, const char *format, ...)
{
    char text[512];
    va_list values;
    va_start(values, format);
    vsnprintf(text, sizeof text, format, values);
    va_end(values);
    complain("%s:%zu: %s", at->file.text, at->number, text);
}
