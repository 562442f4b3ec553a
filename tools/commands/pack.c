#include <stdlib.h>
#include <string.h>

#include "../../include/vinculampe.h"
#include "../commands.h"
#include "../listing.h"
#include "../outputs.h"

enum { TEXT_MOST = 1 << 24 }; /* bytes: a listing has 262,400 at most, comments and blanks may stand in it */

/* A log of so many items so far. */
typedef struct {
    log_pen pen;
    size_t items;
    bool ended;
} packing;

static bool is_blank(const char *line)
{
    return line[strspn(line, " \t\r")] == 0;
}

static bool take_end(const lines *at, const item *i, packing *p)
{
    p->ended = true;
    if (i->time == p->items)
        return true;
    complain_line(at, "end says %llu items, and there are %zu; a listing that was edited goes without this line",
                  (unsigned long long)i->time, p->items);
    return false;
}

static bool take_line(const lines *at, char *line, packing *p)
{
    item i;
    if (p->ended) {
        complain_line(at, "\"%s\": nothing follows the line end", show(line).text);
        return false;
    }
    if (!item_of_line(at, line, &i))
        return false;
    if (i.kind == END_MARK)
        return take_end(at, &i, p);
    if (p->pen.bits + item_bits(&i) + 4 > 8 * (size_t)VIN_LOG_MAX) {
        complain_line(at, "with this item the log has more than %d bytes", VIN_LOG_MAX);
        return false;
    }
    put_item(&p->pen, &i);
    p->items++;
    return true;
}

/* The log of a text, its end mark written. */
static bool pack_text(lines *at, packing *p)
{
    for (char *line; (line = next_line(at));)
        if (!is_blank(line) && !take_line(at, line, p))
            return false;
    put_item(&p->pen, &(item){END_MARK, 0, 0, 0, false, 0});
    return true;
}

static int run_pack(const arguments *given)
{
    const char *name = given->count ? given->files[0] : "-", *to = given->values[OPT_OUT];
    run text;
    if (!read_text(name, TEXT_MOST, "this is no listing: a text of one item a line", &text))
        return MISUSE;
    packing p = {{calloc(VIN_LOG_MAX, 1), 0}, 0, false};
    lines at = lines_of(name, &text);
    int status = MISUSE;
    if (!out_of_memory(p.pen.bytes) && pack_text(&at, &p))
        status = write_one(to ? to : "-", &(run){p.pen.bytes, (p.pen.bits + 7) / 8});
    free(p.pen.bytes);
    free(text.bytes);
    return status;
}

static const option_row options[] = {
    {OPT_OUT, OUTPUT, "LOG", "the log; left out, standard output, unless that is a terminal"},
    {OPTIONS, FLAG, NULL, NULL},
};

const command pack_command = {
    .name = "pack",
    .usage = "[TEXT] [-o LOG]",
    .about = "make a log from its listing: what list prints, backwards",
    .more = "\nTEXT, by default standard input, has an item a line:\n\n"
            "  cmd BUS A|B WORD [at TIME]       arn BUS CHANNEL WORD [at TIME]\n"
            "  sta BUS A|B WORD [resp TIME]     are BUS CHANNEL DIAGNOSTICS\n"
            "  dat BUS A|B WORD                 usr BUS LABEL WORD\n"
            "  err BUS A|B WORD                 ovf BUS WORD\n\n"
            "and may have a last line end N, which is checked. Words are hexadecimal, all other numbers\n"
            "decimal. Blank lines and comments (#) are passed over.\n",
    .least = 0,
    .most = 1,
    .output = FILTERS,
    .options = options,
    .run = run_pack,
};
