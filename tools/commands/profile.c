#include <inttypes.h>
#include <stdarg.h>
#include <stdio.h>
#include <stdlib.h>
#include <string.h>

#include "../../include/vinculampe.h"
#include "../commands.h"
#include "../lister.h"
#include "../listing.h"
#include "../refusal.h"

/* ==== Which rule an item breaks: the library decides that it breaks one, this says which ==== */

enum { WHY_MOST = 400 };

/* The items so far, and what is wrong with the one that is looked for. */
typedef struct {
    uint64_t place; /* its first bit; none has it if there is none */
    size_t items;
    item first, before;
    bool tagged; /* a tag came before: its time, and the number of its item */
    uint64_t time;
    size_t tag;
    char why[WHY_MOST + 100]; /* with the item's line before it */
} looking;

static void add_why(looking *l, const char *format, ...) __attribute__((format(printf, 2, 3)));

static void add_why(looking *l, const char *format, ...)
{
    size_t length = strlen(l->why);
    va_list values;
    if (length > 0)
        length += (size_t)snprintf(l->why + length, WHY_MOST - length, "; ");
    va_start(values, format);
    vsnprintf(l->why + length, WHY_MOST - length, format, values);
    va_end(values);
}

static char side(const item *i)
{
    return i->part ? 'B' : 'A';
}

static void judge_command(looking *l, const item *i)
{
    if (i->timed) {
        if (l->tagged && i->time < l->time)
            add_why(l, "its time goes back: item %zu is at %" PRIu64, l->tag, l->time);
        return;
    }
    bool command = l->items > 0 && l->before.kind == COMMAND;
    if (l->items == 0)
        add_why(l, "a command without its time tag, and no item stands before it");
    else if (!command)
        add_why(l, "a command without its time tag, and the item before it is %s", kind_text(l->before.kind));
    else if (!l->before.timed)
        add_why(l, "a command without its time tag, and the command before it has none either");
    else if (l->before.part != i->part)
        add_why(l, "a command without its time tag on side %c, and the tagged one before it is on side %c",
                side(i), side(&l->before));
}

static void judge(looking *l, const item *i)
{
    if (l->items > 0 && i->bus != l->first.bus)
        add_why(l, "it is on bus %u, and the first item on bus %u: only one bus may occur", i->bus,
                l->first.bus);
    if (i->kind == ARINC_WORD || i->kind == NOTICE || i->kind == USER_WORD)
        add_why(l, "it is %s, and the profile has none", kind_text(i->kind));
    if (i->kind == COMMAND)
        judge_command(l, i);
    if (i->kind == STATUS && !i->timed)
        add_why(l, "a status without its response time");
}

static void look_at(void *with, const item *i, size_t number, size_t bit)
{
    looking *l = with;
    if (bit == l->place) {
        judge(l, i);
        if (l->why[0]) {
            char why[WHY_MOST];
            memcpy(why, l->why, sizeof why);
            snprintf(l->why, sizeof l->why, "\"%s\": %s", line_of_item(i).text, why);
        }
    }
    if (l->items++ == 0)
        l->first = *i;
    l->before = *i;
    if (i->kind == COMMAND && i->timed) {
        l->tagged = true;
        l->time = i->time;
        l->tag = number;
    }
}

/* Lists the log, since that is proved, and looks at its items. */
static int look(const char *name, const run *log, looking *l)
{
    run text;
    int status = list_log(name, log, &text);
    if (status != DONE)
        return status;
    bool good = each_item(&text, look_at, l);
    free(text.bytes);
    return good ? DONE : MISUSE;
}

/* ==== The command ==== */

static int say_answer(const char *name, const run *log, vin_answer a)
{
    looking l = {a.number == VIN_PROFILE ? a.place : UINT64_MAX, 0, {0}, {0}, false, 0, 0, ""};
    int status = look(name, log, &l);
    if (status != DONE)
        return status;
    if (a.number == VIN_PROFILE) {
        say_at_item(name, log, a.number, a.place, l.why[0] ? l.why : vin_text(a.number));
        return REFUSED;
    }
    if (l.items == 0)
        printf("yes: no items\n");
    else
        printf("yes: one bus, %u; %zu item%s\n", l.first.bus, l.items, l.items == 1 ? "" : "s");
    return DONE;
}

static int run_profile(const arguments *given)
{
    const char *name = given->count ? given->files[0] : "-";
    run log;
    if (!read_file(name, VIN_LOG_MAX, &log))
        return MISUSE;
    vin_answer a = vin_profile(log.bytes, log.length);
    int status = REFUSED;
    if (a.number == VIN_DONE || a.number == VIN_PROFILE)
        status = say_answer(name, &log, a);
    else
        say_listing_refused(name, &log, a.number, a.place);
    free(log.bytes);
    return status;
}

static const option_row options[] = {{OPTIONS, FLAG, NULL, NULL}};

const command profile_command = {
    .name = "profile",
    .usage = "[LOG]",
    .about = "say whether a log keeps the one-bus test profile",
    .more =
        "\nLOG is by default standard input. Yes, if every item keeps these rules; else the first item that\n"
        "breaks one, and which:\n\n"
        "  only one bus occurs, with no ARINC word and no notice\n"
        "  a command is tagged, unless the item just before it is a tagged command on the same side\n"
        "  a status has its response time\n"
        "  a time tag is no earlier than the one before it\n"
        "  there is no user word\n\n"
        "Data words, bus errors and overflow marks are free, and a log without items passes.\n",
    .least = 0,
    .most = 1,
    .output = PRINTS,
    .options = options,
    .run = run_profile,
};
