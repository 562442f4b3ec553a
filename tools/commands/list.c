#include <stdlib.h>
#include <string.h>

#include "../../include/vinculampe.h"
#include "../commands.h"
#include "../forms.h"
#include "../lister.h"
#include "../listing.h"
#include "../outputs.h"

/* What is written, and how. */
typedef struct {
    buffer to;
    bool json, csv, decode;
    char *line; /* of the lister's text, where it is wanted as it is */
} writing;

/* The lister's own line, with what a command says behind it as a comment. */
static void add_line(writing *w, const item *i)
{
    size_t length = strcspn(w->line, "\n");
    add(&w->to, "%.*s", (int)length, w->line);
    if (w->decode && i->kind == COMMAND)
        add(&w->to, "  # %s", decode_command(i->word).text);
    add(&w->to, "\n");
    w->line += length + 1;
}

static void write_item(void *with, const item *i, size_t number, size_t bit)
{
    writing *w = with;
    listed l = {*i, number, bit};
    if (w->json)
        add_json(&w->to, &l, w->decode);
    else if (w->csv)
        add_csv(&w->to, &l, w->decode);
    else
        add_line(w, i);
}

static int write_form(writing *w, run *text, const char *to)
{
    run copy = {malloc(text->length + 1), text->length};
    if (out_of_memory(copy.bytes))
        return MISUSE;
    memcpy(copy.bytes, text->bytes, text->length);
    text->bytes[text->length] = 0;
    w->line = (char *)text->bytes;
    if (w->csv)
        add_csv_names(&w->to, w->decode);
    bool good = each_item(&copy, write_item, w);
    if (!w->json && !w->csv)
        add(&w->to, "%s", w->line); /* the last line */
    free(copy.bytes);
    int status = write_buffer(&w->to, to);
    return good ? status : MISUSE;
}

static int list_file(const arguments *given, const char *name, const run *log)
{
    writing w = {{{NULL, 0}, 0, false},
                 given->values[OPT_JSON],
                 given->values[OPT_CSV],
                 given->values[OPT_DECODE],
                 NULL};
    const char *to = given->values[OPT_OUT];
    run text;
    int status = list_log(name, log, &text);
    if (status != DONE)
        return status;
    if (w.json || w.csv || w.decode)
        status = write_form(&w, &text, to);
    else
        status = write_one(to ? to : "-", &text);
    free(text.bytes);
    return status;
}

static int run_list(const arguments *given)
{
    const char *name = given->count ? given->files[0] : "-";
    run log;
    if (given->values[OPT_JSON] && given->values[OPT_CSV]) {
        complain("list: --json and --csv exclude each other");
        return MISUSE;
    }
    if (!read_file(name, VIN_LOG_MAX, &log))
        return MISUSE;
    int status = list_file(given, name, &log);
    free(log.bytes);
    return status;
}

static const option_row options[] = {
    {OPT_JSON, FLAG, NULL, "an object a line: {\"n\":1,\"bit\":0,\"kind\":\"cmd\",\"bus\":2,..}"},
    {OPT_CSV, FLAG, NULL, "a row an item, the first row has the names"},
    {OPT_DECODE, FLAG, NULL,
     "take 1553 command words apart: 05-T-01-24 is terminal 5, transmit, subaddress 1, 24 words"},
    {OPT_OUT, OUTPUT, "TEXT", "the listing; left out, standard output"},
    {OPTIONS, FLAG, NULL, NULL},
};

const command list_command = {
    .name = "list",
    .usage = "[LOG] [--json | --csv] [--decode] [-o TEXT]",
    .about = "print a log, a line an item",
    .more =
        "\nLOG is by default standard input. It is listed by the proved lister, vin-lister. What a line has\n"
        "is told by vin pack --help.\n",
    .least = 0,
    .most = 1,
    .output = PRINTS,
    .options = options,
    .run = run_list,
};
