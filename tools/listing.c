#include "listing.h"

#include <inttypes.h>
#include <stdio.h>
#include <stdlib.h>
#include <string.h>

#include "../include/vinculampe.h"

/* A kind's line: what stands between bus and word, the word's digits, and what a time is called. */
static const struct {
    const char *usage, *parts, *part_rule;
    unsigned digits;
    const char *time;
} forms[KINDS] = {
    [COMMAND] = {"cmd BUS A|B WORD [at TIME]", "AB", "the side is A or B", 4, "at"},
    [STATUS] = {"sta BUS A|B WORD [resp TIME]", "AB", "the side is A or B", 4, "resp"},
    [DATA] = {"dat BUS A|B WORD", "AB", "the side is A or B", 4, NULL},
    [BUS_ERROR] = {"err BUS A|B WORD", "AB", "the side is A or B", 4, NULL},
    [ARINC_WORD] = {"arn BUS CHANNEL WORD [at TIME]", "1234", "the channel is 1 to 4", 8, "at"},
    [NOTICE] = {"are BUS CHANNEL DIAGNOSTICS", "1234", "the channel is 1 to 4", 2, NULL},
    [USER_WORD] = {"usr BUS LABEL WORD", "23", "the label is 2 or 3", 4, NULL},
    [OVERFLOW_MARK] = {"ovf BUS WORD", "", "", 4, NULL},
};

enum { LINE_WORDS = 6, RESPONSE_LIMIT = 10000 };

/* A line as it is told, and its words. */
typedef struct {
    const lines *at;
    shown whole;
    char *words[LINE_WORDS];
    size_t count;
} cut_line;

static bool wrong(const cut_line *l, const char *why)
{
    complain_line(l->at, "\"%s\": %s", l->whole.text, why);
    return false;
}

/* A decimal number below the limit. */
static bool take_decimal(const char *word, uint64_t limit, uint64_t *to)
{
    size_t digits = strspn(word, "0123456789");
    if (digits == 0 || digits > 18 || word[digits])
        return false;
    *to = strtoull(word, NULL, 10);
    return *to < limit;
}

static bool take_word(const cut_line *l, const char *word, item *i)
{
    char why[64];
    unsigned digits = forms[i->kind].digits;
    if (strlen(word) == digits && strspn(word, "0123456789ABCDEFabcdef") == digits) {
        i->word = (uint32_t)strtoul(word, NULL, 16);
        return true;
    }
    snprintf(why, sizeof why, "the %s %u hexadecimal digits",
             i->kind == NOTICE ? "diagnostics are" : "word has", digits);
    return wrong(l, why);
}

static bool take_part(const cut_line *l, const char *word, item *i)
{
    const char *found = strlen(word) == 1 ? strchr(forms[i->kind].parts, word[0]) : NULL;
    if (!found)
        return wrong(l, forms[i->kind].part_rule);
    i->part = (unsigned)(found - forms[i->kind].parts);
    return true;
}

static bool take_time(const cut_line *l, const char *what, const char *word, item *i)
{
    bool response = i->kind == STATUS;
    char why[80];
    if (strcmp(what, forms[i->kind].time) != 0) {
        snprintf(why, sizeof why, "a %s line is: %s", kind_code(i->kind), forms[i->kind].usage);
        return wrong(l, why);
    }
    i->timed = true;
    if (take_decimal(word, response ? RESPONSE_LIMIT : VIN_TIME_LIMIT, &i->time))
        return true;
    snprintf(why, sizeof why, "a %s is a decimal number of microseconds below %llu",
             response ? "response time" : "time",
             response ? (unsigned long long)RESPONSE_LIMIT : (unsigned long long)VIN_TIME_LIMIT);
    return wrong(l, why);
}

static bool take_item(const cut_line *l, item *i)
{
    uint64_t bus;
    size_t part = *forms[i->kind].parts ? 1 : 0, fields = 3 + part;
    bool timed = forms[i->kind].time && l->count == fields + 2;
    if (l->count != fields && !timed) {
        char why[80];
        snprintf(why, sizeof why, "a %s line is: %s", kind_code(i->kind), forms[i->kind].usage);
        return wrong(l, why);
    }
    if (!take_decimal(l->words[1], 16, &bus))
        return wrong(l, "the bus is 0 to 15");
    i->bus = (unsigned)bus;
    return (!part || take_part(l, l->words[2], i)) && take_word(l, l->words[2 + part], i)
           && (!timed || take_time(l, l->words[fields], l->words[fields + 1], i));
}

static bool take_end(const cut_line *l, item *i)
{
    if (l->count == 2 && take_decimal(l->words[1], UINT64_MAX, &i->time))
        return true;
    return wrong(l, "the last line is: end NUMBER");
}

bool item_of_line(const lines *at, char *line, item *i)
{
    for (size_t n = strlen(line); n > 0 && strchr(" \t\r", line[n - 1]); n--)
        line[n - 1] = 0;
    cut_line l = {at, show(line + strspn(line, " \t\r")), {NULL}, 0};
    l.count = cut_words(line, l.words, LINE_WORDS);
    *i = (item){END_MARK, 0, 0, 0, false, 0};
    for (unsigned kind = END_MARK; kind < KINDS; kind++)
        if (strcmp(l.words[0], kind_code(kind)) == 0) {
            i->kind = kind;
            return kind == END_MARK ? take_end(&l, i) : take_item(&l, i);
        }
    return wrong(&l,
                 "unknown kind; the kinds are cmd, sta, dat, err, arn, are, usr, ovf, and end at the end");
}

item_line line_of_item(const item *i)
{
    item_line l;
    char part[4] = "", time[24] = "";
    if (*forms[i->kind].parts)
        snprintf(part, sizeof part, "%c ", forms[i->kind].parts[i->part]);
    if (i->timed)
        snprintf(time, sizeof time, " %s %" PRIu64, forms[i->kind].time, i->time);
    snprintf(l.text, sizeof l.text, "%s %u %s%0*" PRIX32 "%s", kind_code(i->kind), i->bus, part,
             (int)forms[i->kind].digits, i->word, time);
    return l;
}

decoded decode_command(uint32_t word)
{
    decoded d = {"", word >> 11 & 31, word >> 5 & 31, word & 31, word >> 10 & 1, false};
    d.mode = d.subaddress == 0 || d.subaddress == 31;
    if (!d.mode && d.count == 0)
        d.count = 32;
    snprintf(d.text, sizeof d.text, "%02u-%c-%02u-%02u%s", d.terminal, d.transmit ? 'T' : 'R', d.subaddress,
             d.count, d.mode ? " mode" : "");
    return d;
}

bool each_item(run *text, use_item *use, void *with)
{
    size_t bit = 0, number = 0;
    item i;
    text->bytes[text->length] = 0; /* read_open has room for one byte more */
    lines at = lines_of("vin-lister", text);
    for (char *line; (line = next_line(&at));) {
        if (!item_of_line(&at, line, &i))
            return false;
        if (i.kind == END_MARK)
            return true;
        use(with, &i, ++number, bit);
        bit += item_bits(&i);
    }
    return true;
}
