#include "forms.h"

#include <inttypes.h>

#include "listing.h"

static bool has_side(const item *i)
{
    return i->kind >= COMMAND && i->kind <= BUS_ERROR;
}

static bool has_channel(const item *i)
{
    return i->kind == ARINC_WORD || i->kind == NOTICE;
}

static int word_digits(const item *i)
{
    return i->kind == ARINC_WORD ? 8 : i->kind == NOTICE ? 2 : 4;
}

void add_json(buffer *to, const listed *l, bool decode)
{
    const item *i = &l->item;
    add(to, "{\"n\":%zu,\"bit\":%zu,\"kind\":\"%s\",\"bus\":%u", l->number, l->bit, kind_code(i->kind),
        i->bus);
    if (has_side(i))
        add(to, ",\"side\":\"%c\"", i->part ? 'B' : 'A');
    if (has_channel(i))
        add(to, ",\"channel\":%u", i->part + 1);
    if (i->kind == USER_WORD)
        add(to, ",\"label\":%u", i->part + 2);
    add(to, ",\"word\":\"%0*" PRIX32 "\"", word_digits(i), i->word);
    if (i->timed)
        add(to, ",\"%s\":%" PRIu64, i->kind == STATUS ? "resp" : "at", i->time);
    if (decode && i->kind == COMMAND) {
        decoded d = decode_command(i->word);
        add(to, ",\"rt\":%u,\"tr\":\"%c\",\"sa\":%u,\"%s\":%u", d.terminal, d.transmit ? 'T' : 'R',
            d.subaddress, d.mode ? "mode" : "count", d.count);
    }
    add(to, "}\n");
}

void add_csv_names(buffer *to, bool decode)
{
    add(to, "n,bit,kind,bus,side,channel,label,word,at,resp%s\n", decode ? ",rt,tr,sa,count,mode" : "");
}

/* A field that stands empty where it does not apply. */
static void add_number(buffer *to, bool applies, uint64_t number)
{
    if (applies)
        add(to, ",%" PRIu64, number);
    else
        add(to, ",");
}

static void add_csv_decoded(buffer *to, const item *i)
{
    bool applies = i->kind == COMMAND;
    decoded d = decode_command(i->word);
    add_number(to, applies, d.terminal);
    add(to, ",%s", !applies ? "" : d.transmit ? "T" : "R");
    add_number(to, applies, d.subaddress);
    add_number(to, applies && !d.mode, d.count);
    add_number(to, applies && d.mode, d.count);
}

void add_csv(buffer *to, const listed *l, bool decode)
{
    const item *i = &l->item;
    add(to, "%zu,%zu,%s,%u,%s", l->number, l->bit, kind_code(i->kind), i->bus,
        !has_side(i) ? ""
        : i->part    ? "B"
                     : "A");
    add_number(to, has_channel(i), i->part + 1);
    add_number(to, i->kind == USER_WORD, i->part + 2);
    add(to, ",%0*" PRIX32, word_digits(i), i->word);
    add_number(to, i->timed && i->kind != STATUS, i->time);
    add_number(to, i->timed && i->kind == STATUS, i->time);
    if (decode)
        add_csv_decoded(to, i);
    add(to, "\n");
}
