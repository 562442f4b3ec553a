#include "help.h"

#include <ctype.h>
#include <string.h>

#include "plan.h"

static void help_plan(FILE *to)
{
    fprintf(to,
            "A plan is text, a line each:\n\n"
            "  words 129        # words of a frame: %d to %d\n"
            "  tracks 1         # 1 to %d; above 1 with exactly one bus\n"
            "  frame-time yes   # these three: yes, or no, as where the line is missing\n"
            "  crc yes\n"
            "  parity no\n"
            "  bus 2 1553       # each bus in use, 0 to 15: 1553 or arinc\n",
            WORDS_LEAST, WORDS_MOST, TRACKS_MOST);
}

void help_all(FILE *to)
{
    fputs("vin: MIL-STD-1553 and ARINC 429 logs packed into IRIG 106 Chapter 8 frames, and read back\n\n",
          to);
    for (size_t n = 0; n < command_count; n++)
        fprintf(to, "  vin %s %s\n      %s\n", commands[n]->name, commands[n]->usage, commands[n]->about);
    fputs("\nvin COMMAND --help says more of one. A file named - is standard input or standard output.\n",
          to);
    help_plan(to);
    fputs("\nFrame times are text, one decimal number of microseconds a line, one a group.\n"
          "Exit status: 0 done; 1 refused; 2 misuse, or a file that cannot be read or written.\n"
          "The manual is vin(1).\n",
          to);
}

void help_command(FILE *to, const command *c)
{
    fprintf(to, "usage: vin %s %s\n\n%c%s.\n", c->name, c->usage, toupper(c->about[0]), c->about + 1);
    fputs(c->more, to);
    bool any = false;
    for (const option_row *row = c->options; row->id != OPTIONS; row++) {
        char name[64];
        if (!row->about)
            continue;
        snprintf(name, sizeof name, "%s%s%s", option_name(row->id), row->value ? " " : "",
                 row->value ? row->value : "");
        fprintf(to, "%s  %-18s%s\n", any ? "" : "\n", name, row->about);
        any = true;
    }
}

/* ==== A word that is nearly a name ==== */

enum { NAME_MOST = 15 };

static size_t least(size_t one, size_t other)
{
    return one < other ? one : other;
}

/* How many letters must be put in, taken out or changed, or change places with the next, to make one of the
 * other. */
static size_t distance(const char *one, const char *other)
{
    size_t n = strlen(one), m = strlen(other), d[NAME_MOST + 1][NAME_MOST + 1];
    if (n > NAME_MOST || m > NAME_MOST)
        return NAME_MOST;
    for (size_t i = 0; i <= n; i++)
        for (size_t j = 0; j <= m; j++) {
            if (i == 0 || j == 0) {
                d[i][j] = i + j;
                continue;
            }
            bool same = one[i - 1] == other[j - 1];
            d[i][j] = least(least(d[i - 1][j], d[i][j - 1]) + 1, d[i - 1][j - 1] + !same);
            if (i > 1 && j > 1 && one[i - 1] == other[j - 2] && one[i - 2] == other[j - 1])
                d[i][j] = least(d[i][j], d[i - 2][j - 2] + 1);
        }
    return d[n][m];
}

const command *command_like(const char *word)
{
    const command *best = NULL;
    size_t near = strlen(word) < 4 ? 2 : 3;
    for (size_t n = 0; n < command_count; n++)
        if (distance(word, commands[n]->name) < near) {
            near = distance(word, commands[n]->name);
            best = commands[n];
        }
    return best;
}
