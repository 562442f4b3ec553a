#define _GNU_SOURCE
#include "lent.h"

#include <stdio.h>
#include <stdlib.h>
#include <string.h>
#include <sys/mman.h>
#include <unistd.h>

#define AROUND 64 /* pattern bytes looked at on the open side */

void lent_new(lent *l, size_t most)
{
    size_t page = (size_t)sysconf(_SC_PAGESIZE);
    uint8_t *all;
    l->size = (most + AROUND + page - 1) / page * page;
    all = mmap(NULL, l->size + 2 * page, PROT_NONE, MAP_PRIVATE | MAP_ANONYMOUS, -1, 0);
    if (all == MAP_FAILED || mprotect(all + page, l->size, PROT_READ | PROT_WRITE) != 0) {
        perror("lent_new");
        exit(2);
    }
    l->region = all + page;
    l->pattern = malloc(l->size);
    if (l->pattern == NULL) {
        perror("lent_new");
        exit(2);
    }
    for (size_t n = 0; n < l->size; n++)
        l->pattern[n] = (uint8_t)(0xA5 ^ (n * 7));
}

/* The bytes that are looked at: the lent ones and those around them on the open side. */
static void span(const lent *l, size_t *first, size_t *end)
{
    size_t offset = (size_t)(l->at - l->region);
    *first = offset < AROUND ? 0 : offset - AROUND;
    *end = offset + l->length + AROUND > l->size ? l->size : offset + l->length + AROUND;
}

uint8_t *lend(lent *l, size_t length, bool at_end)
{
    size_t first, end;
    l->length = length;
    l->at = at_end ? l->region + l->size - length : l->region;
    span(l, &first, &end);
    memcpy(l->region + first, l->pattern + first, end - first);
    return l->at;
}

static bool as_pattern(const lent *l, size_t first, size_t end)
{
    return memcmp(l->region + first, l->pattern + first, end - first) == 0;
}

bool lent_untouched(const lent *l, size_t from)
{
    size_t first, end, offset = (size_t)(l->at - l->region);
    span(l, &first, &end);
    return as_pattern(l, first, offset) && as_pattern(l, offset + from, end);
}
