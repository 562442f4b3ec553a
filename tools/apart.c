#define _XOPEN_SOURCE 700
#include "apart.h"

#include <string.h>
#include <sys/stat.h>
#include <unistd.h>

#include "files.h"
#include "paths.h"

/* A file of the command, and what it is to it: the option's name, or NULL for an input. */
typedef struct {
    const char *name, *option;
    identity which;
} end;

enum { ENDS_MOST = FILES_MOST + OPTIONS + 1 };

typedef struct {
    end ends[ENDS_MOST];
    size_t count;
} all_ends;

static void add(all_ends *all, const char *name, const char *option)
{
    end *e = &all->ends[all->count++];
    *e = (end){name, option, identity_of(name, option ? STDOUT_FILENO : STDIN_FILENO)};
}

static all_ends ends_of(const command *c, const arguments *a)
{
    all_ends all;
    all.count = 0;
    for (size_t n = c->words; n < a->count; n++)
        add(&all, a->files[n], NULL);
    if (c->least == c->words && c->most > c->words && a->count == c->words)
        add(&all, "-", NULL); /* the file that is left out */
    for (const option_row *row = c->options; row->id != OPTIONS; row++)
        if (a->values[row->id] && (row->role == INPUT || row->role == OUTPUT))
            add(&all, a->values[row->id], row->role == OUTPUT ? option_name(row->id) : NULL);
    if (c->output != NEEDS_OUT && !a->values[OPT_OUT])
        add(&all, "-", "standard output");
    return all;
}

static bool is_standard_input(const char *name)
{
    return is_standard(name) || strcmp(name, "/dev/stdin") == 0 || strcmp(name, "/dev/fd/0") == 0;
}

/* What is written there is gone, or stands among other things. */
static bool keeps(const identity *i)
{
    return i->there && (S_ISREG(i->at.st_mode) || S_ISBLK(i->at.st_mode));
}

static bool is_null(const identity *i)
{
    struct stat null;
    return i->there && stat("/dev/null", &null) == 0 && S_ISCHR(i->at.st_mode)
           && i->at.st_rdev == null.st_rdev;
}

static bool clash(const command *c, const end *one, const end *other)
{
    bool same = same_identity(&one->which, &other->which) || strcmp(one->name, other->name) == 0;
    if (one->option && other->option && same && !is_null(&one->which)) {
        complain("%s: %s and %s name the same file", c->name, one->option, other->option);
        return true;
    }
    if (!one->option == !other->option || !same_identity(&one->which, &other->which) || !keeps(&one->which))
        return false;
    complain("%s: %s is also an input", c->name, output_name(one->option ? one->name : other->name).text);
    return true;
}

bool are_apart(const command *c, const arguments *a)
{
    all_ends all = ends_of(c, a);
    size_t standard = 0;
    for (size_t n = 0; n < all.count; n++)
        standard += !all.ends[n].option && is_standard_input(all.ends[n].name);
    if (standard > 1) {
        complain("%s: standard input can be read only once", c->name);
        return false;
    }
    for (size_t n = 0; n < all.count; n++)
        for (size_t m = 0; m < n; m++)
            if (clash(c, &all.ends[m], &all.ends[n]))
                return false;
    return true;
}
