/* A program from before the plan had a CRC label and a fill bus (K5): plans begun in every way that C has, and the functions called
 * without a plan. Compiled with the header of that time, and its source compiled again with the header of today, it must mean label 3 and
 * bus 0. It names nothing that the older header does not have. */
#include <stdio.h>
#include <stdlib.h>
#include <string.h>

#include "vinculampe.h"

enum { WORDS = 128, BYTES = 3 * WORDS };

static const uint8_t data_word[] = {0x32, 0x5F, 0x77, 0x80}; /* bus 2, data A, BEEF */
static uint8_t capture[BYTES], back[8];

static void check(const char *how, vin_answer a, uint64_t bytes)
{
    if (a.number != 0 || a.place != 0 || a.second != 0 || a.bytes != bytes) {
        printf("older: %s: refused by %u\n", how, (unsigned)a.number);
        exit(1);
    }
}

/* A sync word, 2DBEEF, fill on bus 0, and a CRC word of bus 0 and label 3; parity changes none but the CRC word's bit 1. */
static void is_usual(const char *how)
{
    for (int n = 2; n < WORDS - 1; n++)
        if (memcmp(capture + 3 * n, "\x01\xAA\xAA", 3) != 0) {
            printf("older: %s: word %d is no fill on bus 0\n", how, n);
            exit(1);
        }
    if ((capture[BYTES - 3] & 0x7F) != 0x03) {
        printf("older: %s: the CRC word's bus and label are %02X\n", how, capture[BYTES - 3]);
        exit(1);
    }
}

static void tried(const char *how, const vin_plan *plan)
{
    memset(capture, 0, sizeof capture);
    check(how, vin_plan_compose(plan, data_word, sizeof data_word, NULL, 0, capture, sizeof capture), BYTES);
    is_usual(how);
    check(how, vin_plan_read(plan, capture, BYTES, back, sizeof back, NULL, 0), sizeof data_word);
    check(how, vin_plan_read_closed(plan, capture, BYTES, back, sizeof back, NULL, 0), sizeof data_word);
}

static void set(vin_plan *plan)
{
    plan->words = WORDS;
    plan->tracks = 1;
    plan->crc = 1;
    plan->kinds[2] = VIN_KIND_1553;
}

static vin_plan in_static_memory;

int main(void)
{
    vin_plan begun = VIN_PLAN_INIT(WORDS, 1), in_order = {WORDS, 1, 0, 1, 1, {0, 0, VIN_KIND_1553}}, zeros = {0}, cleared, copied;
#ifndef __cplusplus
    vin_plan by_name = {.words = WORDS, .tracks = 1, .crc = 1, .kinds = {[2] = VIN_KIND_1553}};
    tried("initialized by name", &by_name);
#endif
    vin_plan *in_heap = (vin_plan *)calloc(1, sizeof *in_heap);
    if (in_heap == NULL)
        return 2;
    set(&begun);
    tried("begun with VIN_PLAN_INIT", &begun);
    tried("initialized in order", &in_order);
    set(&zeros);
    tried("begun with zeros", &zeros);
    memset(&cleared, 0, sizeof cleared);
    set(&cleared);
    tried("cleared", &cleared);
    copied = cleared;
    tried("copied", &copied);
    set(&in_static_memory);
    tried("in static memory", &in_static_memory);
    set(in_heap);
    tried("from calloc", in_heap);
    free(in_heap);

    memset(capture, 0, sizeof capture);
    check("vin_compose", vin_compose(WORDS, 1, 0, 1, 1, zeros.kinds, 16, data_word, sizeof data_word, back, 0, capture, BYTES), BYTES);
    is_usual("vin_compose");
    check("vin_read", vin_read(WORDS, 1, 0, 1, 1, zeros.kinds, 16, capture, BYTES, back, sizeof back, capture, 0), sizeof data_word);
    check("vin_read_closed", vin_read_closed(WORDS, 1, 0, 1, 1, zeros.kinds, 16, capture, BYTES, back, sizeof back, capture, 0),
          sizeof data_word);
    return 0;
}
