/* Document 01, "Programs": the lister's text. */
#include <inttypes.h>
#include <stdarg.h>
#include <stdio.h>

#include "rules.h"

typedef struct {
    char *bytes;
    size_t room, length;
} text;

static void print(text *t, const char *form, ...)
{
    char line[80];
    va_list values;
    va_start(values, form);
    int n = vsnprintf(line, sizeof line, form, values);
    va_end(values);
    for (int i = 0; i < n; i++, t->length++)
        if (t->length < t->room)
            t->bytes[t->length] = line[i];
}

/* "`cmd`, `sta`, `dat`, `err` with bus, A or B, four hex digits, then ` at T` or ` resp T`; `arn` with bus, channel 1-4,
 * eight hex digits, ` at T`; `are` with bus, channel, two hex; `usr` with bus, 2 or 3, four hex; `ovf` with bus, four hex.
 * Hex is in capitals, all other numbers decimal." */
static void print_item(text *t, const item *i)
{
    static const char *const names[] = {[COMMAND] = "cmd", [STATUS] = "sta", [DATA] = "dat", [BUS_ERROR] = "err"};
    switch (i->kind) {
    case COMMAND: case STATUS: case DATA: case BUS_ERROR:
        print(t, "%s %" PRIu32 " %c %04" PRIX32, names[i->kind], i->bus, i->b ? 'B' : 'A', i->word);
        break;
    case ARINC_WORD:
        print(t, "arn %" PRIu32 " %" PRIu32 " %08" PRIX32, i->bus, i->channel + 1, i->word);
        break;
    case NOTICE:
        print(t, "are %" PRIu32 " %" PRIu32 " %02" PRIX32, i->bus, i->channel + 1, i->word);
        break;
    case USER:
        print(t, "usr %" PRIu32 " %c %04" PRIX32, i->bus, i->label3 ? '3' : '2', i->word);
        break;
    case OVERFLOW_MARK:
        print(t, "ovf %" PRIu32 " %04" PRIX32, i->bus, i->word);
        break;
    }
    if (i->tagged)
        print(t, " at %" PRIu64, time_join(i->time));
    if (i->timed)
        print(t, " resp %" PRIu32, i->response);
    print(t, "\n");
}

static void print_refusal(text *t, uint32_t number, uint64_t place)
{
    t->length = 0; /* "or only `refused N at P`" */
    print(t, "refused %" PRIu32 " at %" PRIu64 "\n", number, place);
}

/* "A lister .. writes one line an item, then `end N`, or only `refused N at P` (2 and 4 apply)." */
size_t ind_list(const uint8_t *log, size_t log_len, char *bytes, size_t room)
{
    text t = {bytes, room, 0};
    uint64_t bit = 0, items = 0;
    if (log_len > LOG_MAX) {
        print_refusal(&t, 2, 0);
        return t.length;
    }
    for (;;) {
        item i;
        uint64_t first_bit = bit;
        enum stands stands = log_next(log, log_len, &bit, &i);
        if (stands == STANDS_END) {
            print(&t, "end %" PRIu64 "\n", items);
            return t.length;
        }
        if (stands == STANDS_FAULT || !item_within_limits(&i)) {
            print_refusal(&t, stands == STANDS_FAULT ? 2 : 4, first_bit);
            return t.length;
        }
        print_item(&t, &i);
        items++;
    }
}
