/* The forms of a listing for other programs. */
#ifndef FORMS_H
#define FORMS_H

#include "buffer.h"
#include "items.h"

/* An item, and where it stands in its log: counted from 1, and its first bit. */
typedef struct {
    item item;
    size_t number, bit;
} listed;

/* An object a line. */
void add_json(buffer *to, const listed *l, bool decode);

/* A row; and the row of names. */
void add_csv(buffer *to, const listed *l, bool decode);
void add_csv_names(buffer *to, bool decode);

#endif
