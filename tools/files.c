#define _XOPEN_SOURCE 700
#include "files.h"

#include <errno.h>
#include <fcntl.h>
#include <stdlib.h>
#include <string.h>
#include <sys/stat.h>
#include <unistd.h>

bool is_standard(const char *name)
{
    return strcmp(name, "-") == 0;
}

shown_name input_name(const char *name)
{
    return show_name(is_standard(name) ? "standard input" : name);
}

shown_name output_name(const char *name)
{
    return show_name(is_standard(name) ? "standard output" : name);
}

bool out_of_memory(void *room)
{
    if (!room)
        complain("out of memory");
    return !room;
}

bool read_open(int file, const char *name, size_t most, run *to)
{
    to->length = 0;
    to->bytes = malloc(most + 1);
    if (out_of_memory(to->bytes))
        return false;
    while (to->length <= most) {
        ssize_t got = read(file, to->bytes + to->length, most + 1 - to->length);
        if (got == 0)
            break;
        if (got > 0)
            to->length += (size_t)got;
        else if (errno != EINTR) {
            complain_errno("%s", input_name(name).text);
            free(to->bytes);
            *to = (run){NULL, 0};
            return false;
        }
    }
    return true;
}

bool read_file(const char *name, size_t most, run *to)
{
    *to = (run){NULL, 0};
    if (is_standard(name))
        return read_open(STDIN_FILENO, name, most, to);
    int file = open(name, O_RDONLY | O_CLOEXEC);
    if (file < 0) {
        complain_errno("%s", input_name(name).text);
        return false;
    }
    bool whole = read_open(file, name, most, to);
    close(file);
    return whole;
}

uint64_t file_size(const char *name)
{
    struct stat there;
    int found = is_standard(name) ? fstat(STDIN_FILENO, &there) : stat(name, &there);
    return found == 0 && S_ISREG(there.st_mode) ? (uint64_t)there.st_size : 0;
}
