/* The listing: an item a line, as the lister writes it. */
#ifndef LISTING_H
#define LISTING_H

#include "items.h"
#include "text.h"

/* The item of a line that is not blank; END_MARK for "end N", with N in its time. What is wrong is said with
 * the line. */
bool item_of_line(const lines *at, char *line, item *i);

/* The item's line, as the lister writes it. */
typedef struct {
    char text[48];
} item_line;

item_line line_of_item(const item *i);

/* "05-T-01-24": terminal, transmit or receive, subaddress and count of a command word; of a mode command,
 * whose subaddress is 0 or 31, the code and " mode". */
typedef struct {
    char text[24];
    unsigned terminal, subaddress, count; /* or the mode code */
    bool transmit, mode;
} decoded;

decoded decode_command(uint32_t word);

/* Every item of a listing that the lister wrote, in order, with its number from 1 and its first bit. The text
 * is cut up on the way. */
typedef void use_item(void *with, const item *i, size_t number, size_t bit);

bool each_item(run *text, use_item *use, void *with);

#endif
