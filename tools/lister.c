#define _XOPEN_SOURCE 700
#include "lister.h"

#include <errno.h>
#include <limits.h>
#include <signal.h>
#include <stdio.h>
#include <stdlib.h>
#include <string.h>
#include <sys/wait.h>
#include <unistd.h>

#include "outputs.h"
#include "refusal.h"

/* The words that run a program of x86-64 where the processor is another: the Makefile gives them. */
#ifndef RUNNER
#define RUNNER
#endif

enum { TEXT_MOST = 262400 }; /* bytes: no log has a longer text (docs/DECISIONS.md, 24) */

static const char lister_name[] = "vin-lister";

/* The lister's path: the folder of this program. */
static bool find_lister(char path[PATH_MAX])
{
    ssize_t length = readlink("/proc/self/exe", path, PATH_MAX - sizeof lister_name);
    if (length < 0) {
        complain_errno("/proc/self/exe");
        return false;
    }
    path[length] = 0;
    char *slash = strrchr(path, '/');
    strcpy(slash ? slash + 1 : path, lister_name);
    return true;
}

static void become_lister(char *path, int from, int to)
{
    char *words[] = {RUNNER path, NULL};
    if (dup2(from, STDIN_FILENO) >= 0 && dup2(to, STDOUT_FILENO) >= 0)
        execvp(words[0], words);
    complain_errno("%s", words[0]);
    _exit(127);
}

/* The lister reads all its input before it writes, so that all is given before anything is taken. A lister
 * that is gone is told by its end, so a broken pipe is no matter here. */
static bool talk(int to, int from, const run *log, run *text)
{
    struct sigaction ignore, before;
    memset(&ignore, 0, sizeof ignore);
    ignore.sa_handler = SIG_IGN;
    sigaction(SIGPIPE, &ignore, &before);
    (void)write_open(to, log->bytes, log->length);
    close(to);
    sigaction(SIGPIPE, &before, NULL);
    bool whole = read_open(from, lister_name, TEXT_MOST, text);
    close(from);
    return whole;
}

static bool ended_well(pid_t child)
{
    int status;
    while (waitpid(child, &status, 0) < 0)
        if (errno != EINTR)
            return false;
    return WIFEXITED(status) && WEXITSTATUS(status) == 0;
}

/* A lister's text ends in a line feed; that of a lister that was ended does not. */
static bool is_whole(const run *text)
{
    return text->length > 0 && text->length <= TEXT_MOST && text->bytes[text->length - 1] == '\n';
}

static bool run_lister(const run *log, run *text)
{
    char path[PATH_MAX];
    int in[2], out[2];
    if (!find_lister(path))
        return false;
    if (pipe(in) != 0 || pipe(out) != 0) {
        complain_errno("%s", lister_name);
        return false;
    }
    pid_t child = fork();
    if (child == 0) {
        close(in[1]);
        close(out[0]);
        become_lister(path, in[0], out[1]);
    }
    close(in[0]);
    close(out[1]);
    if (child < 0) {
        complain_errno("%s", lister_name);
        close(in[1]);
        close(out[0]);
        return false;
    }
    bool took = talk(in[1], out[0], log, text), well = ended_well(child);
    if (took && well && is_whole(text))
        return true;
    if (took)
        free(text->bytes);
    complain("%s did not list the log", show_name(path).text);
    return false;
}

int list_log(const char *name, const run *log, run *text)
{
    unsigned number;
    unsigned long long place;
    char line[64] = "";
    if (!run_lister(log, text))
        return MISUSE;
    memcpy(line, text->bytes, text->length < sizeof line ? text->length : sizeof line - 1);
    if (sscanf(line, "refused %u at %llu", &number, &place) != 2)
        return DONE;
    say_listing_refused(name, log, number, place);
    free(text->bytes);
    return REFUSED;
}
