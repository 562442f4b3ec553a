/* Memory that is lent to the library: bytes of a known pattern on both sides, and beyond them pages that may not be touched. */
#ifndef LENT_H
#define LENT_H

#include <stdbool.h>
#include <stddef.h>
#include <stdint.h>

typedef struct {
    uint8_t *region; /* whole pages between two that may not be touched */
    size_t size;
    uint8_t *pattern; /* what the region holds where nobody wrote */
    uint8_t *at; /* what is lent now */
    size_t length;
} lent;

/* Makes a region that can lend up to `most` bytes. */
void lent_new(lent *l, size_t most);

/* Lends `length` bytes, at the very end of the region or at its very beginning, so that one byte beyond them, or before, is a fault
 * of the processor; the other side has pattern bytes. The lent bytes hold the pattern, too. */
uint8_t *lend(lent *l, size_t length, bool at_end);

/* Whether the lent bytes from `from` on, and the pattern around them, are as they were lent. */
bool lent_untouched(const lent *l, size_t from);

#endif
