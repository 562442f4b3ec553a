#define _XOPEN_SOURCE 700
#include "paths.h"

#include <errno.h>
#include <limits.h>
#include <stdio.h>
#include <stdlib.h>
#include <string.h>
#include <unistd.h>

#include "files.h"

enum { LINKS_MOST = 40 }; /* as the kernel has it */

static int folder_length(const char *name)
{
    const char *slash = strrchr(name, '/');
    return slash ? (int)(slash - name) + 1 : 0;
}

/* What the link says, seen from where the link stands. */
static char *behind_link(const char *name)
{
    char target[PATH_MAX];
    ssize_t length = readlink(name, target, sizeof target - 1);
    if (length < 0)
        return NULL;
    target[length] = 0;
    int folder = target[0] == '/' ? 0 : folder_length(name);
    size_t size = (size_t)folder + (size_t)length + 1;
    char *path = malloc(size);
    if (path)
        snprintf(path, size, "%.*s%s", folder, name, target);
    return path;
}

char *follow_links(const char *name)
{
    struct stat there;
    char *path = strdup(name);
    for (int n = 0; path && lstat(path, &there) == 0 && S_ISLNK(there.st_mode); n++) {
        char *next = n < LINKS_MOST ? behind_link(path) : NULL;
        int reason = n < LINKS_MOST ? errno : ELOOP;
        free(path);
        path = next;
        errno = reason;
    }
    return path;
}

static identity of_folder(const char *name)
{
    identity i = {false, false, {0}, {0}};
    char *path = follow_links(name);
    if (!path)
        return i;
    int folder = folder_length(path);
    const char *last = path + folder;
    if (*last && strlen(last) < sizeof i.last) {
        strcpy(i.last, last);
        path[folder] = 0;
        i.known = stat(folder ? path : ".", &i.at) == 0;
    }
    free(path);
    return i;
}

identity identity_of(const char *name, int standard)
{
    identity i = {false, false, {0}, {0}};
    int found = is_standard(name) ? fstat(standard, &i.at) : stat(name, &i.at);
    i.known = i.there = found == 0;
    return i.known || is_standard(name) ? i : of_folder(name);
}

bool same_identity(const identity *one, const identity *other)
{
    return one->known && other->known && one->there == other->there && one->at.st_dev == other->at.st_dev
           && one->at.st_ino == other->at.st_ino && strcmp(one->last, other->last) == 0;
}
