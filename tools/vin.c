/* vin: house logs to captures and back, at the command line. tools/vin.1 is the manual. */
#define _XOPEN_SOURCE 700
#include <signal.h>
#include <stdio.h>
#include <string.h>
#include <unistd.h>

#include "../include/vinculampe.h"
#include "apart.h"
#include "commands.h"
#include "help.h"
#include "say.h"

/* Makes up what is left out: of a filter the output is standard output, unless that is a terminal; a number
 * is printed there, too. */
static bool has_output(const command *c, arguments *a)
{
    if (c->output != FILTERS || a->values[OPT_OUT] || a->values[OPT_LEAST])
        return true;
    if (!isatty(STDOUT_FILENO))
        return true;
    complain("%s: no output is named, and standard output is a terminal: -o FILE, or -o -", c->name);
    return false;
}

static int run_command(const command *c, int count, char **words)
{
    arguments a = {{NULL}, 0, {NULL}, {0}};
    bool help_asked = false;
    int status = take_arguments(c, count, words, &a, &help_asked);
    if (status != DONE)
        return status;
    if (help_asked) {
        help_command(stdout, c);
        return DONE;
    }
    if (!has_output(c, &a) || !are_apart(c, &a))
        return MISUSE;
    return c->run(&a);
}

static bool asks_help(const char *word)
{
    return strcmp(word, "--help") == 0 || strcmp(word, "-h") == 0 || strcmp(word, "help") == 0;
}

static int no_command(const char *word)
{
    const command *like = command_like(word);
    if (like)
        complain("no command %s; did you mean %s? vin --help lists them", show(word).text, like->name);
    else
        complain("no command %s; vin --help lists them", show(word).text);
    return MISUSE;
}

static int run_help(int count, char **words)
{
    const command *c = count > 2 ? command_named(words[2]) : NULL;
    if (count > 2 && !c)
        return no_command(words[2]);
    if (c)
        help_command(stdout, c);
    else
        help_all(stdout);
    return DONE;
}

static int run_words(int count, char **words)
{
    if (count < 2) {
        help_all(stderr);
        return MISUSE;
    }
    const command *c = command_named(words[1]);
    if (c)
        return run_command(c, count - 1, words + 1);
    if (asks_help(words[1]))
        return run_help(count, words);
    if (strcmp(words[1], "--version") == 0) {
        puts("vin " VIN_VERSION);
        return DONE;
    }
    return no_command(words[1]);
}

int main(int count, char **words)
{
    signal(SIGXFSZ, SIG_IGN); /* a limit on files is then told as a full disk is */
    int status = run_words(count, words);
    if (fflush(stdout) != 0 || ferror(stdout)) {
        complain_errno("standard output");
        status = MISUSE;
    }
    return status;
}
