/* The items of a house log: what they are called, and how they stand in a log. */
#ifndef ITEMS_H
#define ITEMS_H

#include <stdbool.h>
#include <stddef.h>
#include <stdint.h>

enum item_kind {
    END_MARK,
    COMMAND,
    STATUS,
    DATA,
    BUS_ERROR,
    ARINC_WORD,
    NOTICE,
    USER_WORD,
    OVERFLOW_MARK,
    KINDS
};

typedef struct {
    unsigned kind, bus;
    unsigned part; /* B: 1; the ARINC channel, 0 to 3; label 3 rather than 2: 1 */
    uint32_t word; /* a notice's diagnostics */
    bool timed;    /* it has a time tag, or a response time */
    uint64_t time; /* that one */
} item;

/* The item's bits in a log, and its words in a capture. */
size_t item_bits(const item *i);
size_t item_words(const item *i);

/* "a command" and the like, and "cmd" and the like. */
const char *kind_text(unsigned kind);
const char *kind_code(unsigned kind);

/* ==== A log being written ==== */

typedef struct {
    uint8_t *bytes; /* zeros, enough of them */
    size_t bits;
} log_pen;

void put_item(log_pen *pen, const item *i);

/* ==== What stands at a bit of a log, for messages ==== */

typedef struct {
    size_t number; /* which item it is, counted from 1 */
    size_t left;   /* the bits from here to the log's end */
    unsigned kind; /* of KINDS or more: unknown; only where 4 bits are left */
    unsigned bus;  /* only where 8 bits are left */
    bool whole;    /* the log has all its bits; what is unknown, or no item, is not whole */
    bool timed;    /* it has a micro or a response */
    unsigned fine; /* that micro or response, if whole */
    uint64_t time; /* the time that ends in that micro */
} spot;

/* Where every item before this bit is whole. */
spot spot_at(const uint8_t *log, size_t length, uint64_t bit);

#endif
