#define _XOPEN_SOURCE 700
#include "growing.h"

#include <fcntl.h>
#include <stdio.h>
#include <stdlib.h>
#include <string.h>
#include <sys/stat.h>
#include <unistd.h>

#include "outputs.h"
#include "paths.h"

static char *with_ending(const char *name)
{
    static const char ending[] = ".part";
    char *part = malloc(strlen(name) + sizeof ending);
    if (!out_of_memory(part))
        strcat(strcpy(part, name), ending);
    return part;
}

char *part_of(const char *name)
{
    char *whole = name && !is_direct(name) ? follow_links(name) : NULL;
    char *part = whole ? with_ending(whole) : NULL;
    free(whole);
    return part;
}

/* As the file of that name, if there is one. */
static bool begin_part(growing *g)
{
    struct stat old;
    bool exists = stat(g->whole, &old) == 0;
    if (exists && access(g->whole, W_OK) != 0)
        return false;
    g->file = open(g->part, O_WRONLY | O_CREAT | O_TRUNC | O_CLOEXEC, exists ? old.st_mode & 0666 : 0666);
    return g->file >= 0;
}

bool begin_growing(growing *g, const char *name)
{
    *g = (growing){name, NULL, NULL, -1};
    if (!name)
        return true;
    if (is_direct(name)) {
        g->file = is_standard(name) ? STDOUT_FILENO : open(name, O_WRONLY | O_APPEND | O_CLOEXEC);
        if (g->file >= 0)
            return true;
    } else {
        g->whole = follow_links(name);
        g->part = g->whole ? with_ending(g->whole) : NULL;
        if (g->part && begin_part(g))
            return true;
    }
    complain_errno("%s", output_name(name).text);
    return false;
}

bool grow(growing *g, const uint8_t *bytes, size_t length)
{
    if (!g->name || write_open(g->file, bytes, length))
        return true;
    complain_errno("%s", output_name(g->name).text);
    return false;
}

bool end_growing(growing *g)
{
    if (!g->part)
        return true;
    bool whole = fsync(g->file) == 0;
    whole = close(g->file) == 0 && whole;
    g->file = -1;
    whole = whole && rename(g->part, g->whole) == 0;
    if (!whole)
        complain_errno("%s", output_name(g->name).text);
    return whole;
}

void say_part(const growing *g)
{
    if (g->part)
        complain("%s: note: what was whole stays in %s", output_name(g->name).text, show_name(g->part).text);
}

void drop_growing(growing *g)
{
    if (g->file >= 0 && g->file != STDOUT_FILENO)
        close(g->file);
    free(g->whole);
    free(g->part);
}
