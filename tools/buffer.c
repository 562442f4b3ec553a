#include "buffer.h"

#include <stdarg.h>
#include <stdio.h>
#include <stdlib.h>

#include "outputs.h"

enum { ONCE_MOST = 1024 }; /* bytes that are added at once */

static bool has_room(buffer *b)
{
    if (b->room - b->text.length > ONCE_MOST)
        return true;
    size_t room = 2 * b->room + 2 * ONCE_MOST;
    uint8_t *bytes = b->failed ? NULL : realloc(b->text.bytes, room);
    b->failed = !bytes;
    if (bytes) {
        b->text.bytes = bytes;
        b->room = room;
    }
    return bytes;
}

void add(buffer *b, const char *format, ...)
{
    va_list values;
    if (!has_room(b))
        return;
    va_start(values, format);
    b->text.length += (size_t)vsnprintf((char *)b->text.bytes + b->text.length, ONCE_MOST, format, values);
    va_end(values);
}

int write_buffer(buffer *b, const char *to)
{
    int status = MISUSE;
    if (b->failed)
        complain("out of memory");
    else
        status = write_one(to ? to : "-", &b->text);
    free(b->text.bytes);
    return status;
}
