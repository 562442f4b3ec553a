#define _XOPEN_SOURCE 700
#include "outputs.h"

#include <errno.h>
#include <fcntl.h>
#include <signal.h>
#include <stdio.h>
#include <stdlib.h>
#include <string.h>
#include <sys/stat.h>
#include <unistd.h>

#include "paths.h"

bool write_open(int file, const uint8_t *bytes, size_t length)
{
    while (length > 0) {
        ssize_t put = write(file, bytes, length);
        if (put >= 0) {
            bytes += put;
            length -= (size_t)put;
        } else if (errno != EINTR)
            return false;
    }
    return true;
}

/* ==== Directly ==== */

static bool begins(const char *name, const char *with)
{
    return strncmp(name, with, strlen(with)) == 0;
}

bool is_direct(const char *name)
{
    struct stat there;
    return is_standard(name) || begins(name, "/dev/std") || begins(name, "/dev/fd/")
           || (stat(name, &there) == 0 && !S_ISREG(there.st_mode));
}

static bool write_direct(const output *o)
{
    int file = is_standard(o->name) ? STDOUT_FILENO : open(o->name, O_WRONLY | O_APPEND | O_CLOEXEC);
    bool whole = file >= 0 && write_open(file, o->bytes, o->length);
    if (file >= 0 && file != STDOUT_FILENO)
        whole = close(file) == 0 && whole;
    if (!whole)
        complain_errno("%s", output_name(o->name).text);
    return whole;
}

/* ==== Beside the name, then under it ==== */

/* An output that stands in full beside its name. */
typedef struct {
    char *name;       /* behind all links */
    char *temporary;  /* in the same folder */
    struct stat made; /* the temporary file, which gets the name */
} staged;

static char *beside(const char *name, size_t index)
{
    const char *slash = strrchr(name, '/');
    int folder = slash ? (int)(slash - name) + 1 : 0;
    size_t size = (size_t)folder + 64;
    char *path = malloc(size);
    if (path)
        snprintf(path, size, "%.*s.vin-%ld-%zu", folder, name, (long)getpid(), index);
    return path;
}

/* Gives the file the old one's owner, group and mode. Where the group cannot be kept, the caller's gets no
 * more than others have. */
static bool like_old(int file, const struct stat *old, const struct stat *made)
{
    mode_t mode = old->st_mode & 0777;
    bool owner = old->st_uid == made->st_uid, group = old->st_gid == made->st_gid;
    if (!group)
        group = fchown(file, (uid_t)-1, old->st_gid) == 0;
    if (!owner && fchown(file, old->st_uid, (gid_t)-1) != 0)
        errno = 0; /* only the superuser gives files away: the new one is the caller's */
    if (!group)
        mode &= (mode & 07) << 3 | 0707u;
    return fchmod(file, mode) == 0;
}

static bool fill_temporary(const output *o, const struct stat *old, staged *s)
{
    int file = open(s->temporary, O_WRONLY | O_CREAT | O_EXCL | O_CLOEXEC, old ? 0600 : 0666);
    if (file < 0)
        return false;
    bool whole = fstat(file, &s->made) == 0 && write_open(file, o->bytes, o->length)
                 && (!old || like_old(file, old, &s->made)) && fsync(file) == 0;
    int reason = errno;
    if (close(file) != 0 && whole) {
        whole = false;
        reason = errno;
    }
    if (!whole)
        unlink(s->temporary);
    errno = reason;
    return whole;
}

static void forget(staged *s)
{
    free(s->name);
    free(s->temporary);
    s->name = s->temporary = NULL;
}

enum { TEMPORARIES = 100 };

/* The first such name that is free: another process may have left one. */
static bool make_temporary(const output *o, const struct stat *old, staged *s)
{
    for (size_t n = 0; n < TEMPORARIES; n++) {
        s->temporary = beside(s->name, n);
        if (!s->temporary)
            return false;
        if (fill_temporary(o, old, s))
            return true;
        if (errno != EEXIST)
            return false;
        free(s->temporary);
        s->temporary = NULL;
    }
    errno = EEXIST;
    return false;
}

static bool stage(const output *o, staged *s)
{
    struct stat there;
    s->name = follow_links(o->name);
    bool exists = s->name && stat(s->name, &there) == 0;
    bool whole =
        s->name && (!exists || access(s->name, W_OK) == 0) && make_temporary(o, exists ? &there : NULL, s);
    if (!whole) {
        complain_errno("%s", output_name(o->name).text);
        forget(s);
    }
    return whole;
}

/* Is a file that got its name just now what stands under this one? Names that look apart can be one, as where
 * a folder takes capitals for small letters. */
static bool was_just_written(const staged *ready, size_t count, const char *name)
{
    struct stat there;
    bool found = false;
    if (stat(name, &there) == 0)
        for (size_t n = 0; n < count; n++)
            found |= there.st_dev == ready[n].made.st_dev && there.st_ino == ready[n].made.st_ino;
    return found;
}

static bool put_in_place(staged *ready, size_t index, const char *name)
{
    staged *s = &ready[index];
    bool again = was_just_written(ready, index, s->name),
         moved = !again && rename(s->temporary, s->name) == 0;
    if (again)
        complain("%s: another output has this name", output_name(name).text);
    else if (!moved)
        complain_errno("%s", output_name(name).text);
    if (!moved)
        unlink(s->temporary);
    return moved;
}

static bool write_regular(const output *outputs, size_t count)
{
    staged ready[OUTPUTS_MOST];
    memset(ready, 0, sizeof ready);
    bool good = true;
    for (size_t n = 0; n < count && good; n++)
        if (!is_direct(outputs[n].name))
            good = stage(&outputs[n], &ready[n]);
    for (size_t n = 0; n < count; n++)
        if (ready[n].temporary) {
            if (good)
                good = put_in_place(ready, n, outputs[n].name);
            else
                unlink(ready[n].temporary);
        }
    for (size_t n = 0; n < count; n++)
        forget(&ready[n]);
    return good;
}

bool write_files(const output *outputs, size_t count)
{
    for (size_t n = 0; n < count; n++)
        if (is_direct(outputs[n].name) && !write_direct(&outputs[n]))
            return false;
    sigset_t all, before;
    sigfillset(&all);
    sigprocmask(SIG_BLOCK, &all, &before);
    bool good = write_regular(outputs, count);
    sigprocmask(SIG_SETMASK, &before, NULL);
    return good;
}

int write_one(const char *name, const run *bytes)
{
    return write_files(&(output){name, bytes->bytes, bytes->length}, 1) ? DONE : MISUSE;
}
