/* The items of a log as it grows: a line for each, as the lister writes it. The log is one that the library
 * made. */
#ifndef UNPACK_H
#define UNPACK_H

#include <stdio.h>

#include "../include/vinculampe.h"
#include "items.h"

enum { UNPACK_ITEM_MOST = 14 }; /* bytes of an item, those that it begins and ends in, and one of bits */

typedef struct {
    uint8_t bytes[VIN_STREAM_LOG_ROOM + UNPACK_ITEM_MOST];
    size_t length, bit; /* of the bytes that are not yet used up */
    unsigned bits;      /* more that are there behind them */
    uint64_t items;     /* so far */
} unpacking;

/* Takes what comes next, at most VIN_STREAM_LOG_ROOM bytes, and behind them so many bits, fewer than eight,
 * that are not yet a byte of it; prints the items that are whole. The bits come again, with the byte that
 * they begin. */
void unpack(unpacking *u, const uint8_t *bytes, size_t length, unsigned bits, unsigned last, FILE *to);

/* The log's last bytes, its end mark among them, were taken: prints the last line. */
void end_unpacking(const unpacking *u, FILE *to);

#endif
