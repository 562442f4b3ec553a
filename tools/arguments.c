#define _XOPEN_SOURCE 700
#include "arguments.h"

#include <getopt.h>
#include <stdio.h>
#include <stdlib.h>
#include <string.h>

#include "commands.h"
#include "say.h"

/* getopt's number of an option is FIRST and its id; -o has its letter. */
enum { FIRST = 256 };
/* A name as the user writes it; getopt has it without the dashes, which stand before. */
#define ROW(name, id, takes) \
    { \
        &name[2], takes, NULL, FIRST + id \
    }

static const struct option long_options[] = {
    ROW("--times", OPT_TIMES, required_argument),
    ROW("--times-out", OPT_TIMES_OUT, required_argument),
    ROW("--json", OPT_JSON, no_argument),
    ROW("--csv", OPT_CSV, no_argument),
    ROW("--decode", OPT_DECODE, no_argument),
    ROW("--stored", OPT_STORED, no_argument),
    ROW("--text", OPT_TEXT, no_argument),
    ROW("--from", OPT_FROM, required_argument),
    ROW("--count", OPT_COUNT, required_argument),
    ROW("--group", OPT_GROUP, required_argument),
    ROW("--bus", OPT_BUS, required_argument),
    ROW("--no-fill", OPT_NO_FILL, no_argument),
    ROW("--faults", OPT_FAULTS, no_argument),
    ROW("--by", OPT_BY, required_argument),
    ROW("--capacity", OPT_CAPACITY, required_argument),
    ROW("--least", OPT_LEAST, no_argument),
    ROW("--events", OPT_EVENTS, required_argument),
    ROW("--every", OPT_EVERY, required_argument),
    ROW("--slots", OPT_SLOTS, required_argument),
    ROW("--plan", OPT_PLAN, required_argument),
    ROW("--report", OPT_REPORT, required_argument),
    ROW("--strict", OPT_STRICT, no_argument),
    ROW("--list", OPT_LIST, no_argument),
    ROW("--piece", OPT_PIECE, required_argument),
    ROW("--quiet", OPT_QUIET, no_argument),
    {"help", no_argument, NULL, 'h'},
    {NULL, 0, NULL, 0},
};

const char *option_name(enum option_id id)
{
    const struct option *o = long_options;
    while (o->name && o->val != FIRST + (int)id)
        o++;
    return id == OPT_OUT || !o->name ? "-o" : o->name - 2;
}

static int wrong_usage(const command *c)
{
    fprintf(stderr, "usage: vin %s %s\n", c->name, c->usage);
    return MISUSE;
}

static bool take_file(const command *c, arguments *a, const char *name)
{
    if (a->count == c->most) {
        complain("%s: one argument too many: %s", c->name, show(name).text);
        return false;
    }
    a->files[a->count++] = name;
    return true;
}

/* At most eighteen digits: no number that an option takes is larger. */
static bool take_number(const command *c, enum option_id id, arguments *a)
{
    const char *value = a->values[id];
    size_t digits = strspn(value, "0123456789");
    if (digits == 0 || digits > 18 || value[digits]) {
        complain("%s: %s %s: a decimal number is needed", c->name, option_name(id), show(value).text);
        return false;
    }
    a->numbers[id] = strtoull(value, NULL, 10);
    return true;
}

static const option_row *row_of(const command *c, enum option_id id)
{
    const option_row *row = c->options;
    while (row->id != OPTIONS && row->id != id)
        row++;
    return row->id == id ? row : NULL;
}

static bool take_option(const command *c, enum option_id id, const char *value, arguments *a)
{
    const option_row *row = row_of(c, id);
    if (!row || a->values[id]) {
        complain(row ? "%s: %s is given twice" : "%s: takes no %s", c->name, option_name(id));
        return false;
    }
    a->values[id] = value ? value : option_name(id);
    return row->role != NUMBER || take_number(c, id, a);
}

/* Says what is wrong; false. An option of one letter may stand among others, so getopt names it. */
static bool wrong_option(const command *c, int option, const char *word)
{
    enum option_id id = optopt == 'o' ? OPT_OUT : optopt > FIRST ? (enum option_id)(optopt - FIRST) : OPTIONS;
    const option_row *row = id != OPTIONS ? row_of(c, id) : NULL;
    if (option == ':')
        complain("%s: %s needs %s", c->name, id == OPTIONS ? show(word).text : option_name(id),
                 row && row->role == NUMBER ? "a number"
                 : row && row->role == WORD ? row->value
                                            : "a file");
    else if (id != OPTIONS) /* a flag with "=" behind it */
        complain("%s: %s takes no value", c->name, option_name(id));
    else if (optopt > ' ' && optopt <= '~')
        complain("%s: unknown option -%c", c->name, optopt);
    else
        complain("%s: unknown option %s", c->name, show(word).text);
    return false;
}

static bool take_words(const command *c, int count, char **words, arguments *a, bool *help_asked)
{
    int option;
    bool good = true;
    opterr = 0;
    while (good && (option = getopt_long(count, words, "-:ho:", long_options, NULL)) != -1) {
        if (option == 'h')
            *help_asked = true;
        else if (option == 1)
            good = take_file(c, a, optarg);
        else if (option == 'o')
            good = take_option(c, OPT_OUT, optarg, a);
        else if (option >= FIRST)
            good = take_option(c, (enum option_id)(option - FIRST), optarg, a);
        else
            good = wrong_option(c, option, words[optind - 1]);
    }
    for (; good && optind < count; optind++) /* behind "--" */
        good = take_file(c, a, words[optind]);
    return good;
}

int take_arguments(const command *c, int count, char **words, arguments *a, bool *help_asked)
{
    if (!take_words(c, count, words, a, help_asked))
        return wrong_usage(c);
    if (*help_asked)
        return DONE;
    if (a->count < c->least) {
        complain("%s: an argument is missing", c->name);
        return wrong_usage(c);
    }
    if (c->output == NEEDS_OUT && !a->values[OPT_OUT]) {
        complain("%s: no output is named: -o FILE, or -o - for standard output", c->name);
        return wrong_usage(c);
    }
    return DONE;
}
