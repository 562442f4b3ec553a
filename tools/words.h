/* Rows of words, as vin_read_words makes them: four bytes each, most significant first, or text of one
 * hexadecimal number a line. */
#ifndef WORDS_H
#define WORDS_H

#include "files.h"
#include "plan.h"

typedef struct {
    const char *name;
    uint32_t *row;
    size_t count;
    size_t *line_numbers; /* of a text, for each word; of bytes NULL */
} words_file;

/* Reads either: a row of bytes begins with a zero byte, as no text does. What is wrong is said. The words are
 * to be dropped in any case. */
bool read_words(const char *name, words_file *to);

void drop_words(words_file *words);

/* The bytes, or the text, of so many words. */
bool words_out(const uint32_t *row, size_t count, bool as_text, run *to);

/* Says by which number vin_read_items refused the words, and where. */
void say_words_refused(const plan_file *plan, const words_file *words, vin_answer a);

#endif
