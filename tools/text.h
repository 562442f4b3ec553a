/* Texts of the user's, line by line. */
#ifndef TEXT_H
#define TEXT_H

#include "files.h"

/* Reads a text of at most `most` bytes, and puts a zero behind it; a byte order mark at its start is passed
 * over. What is longer or has zeros in it is told as "NAME: WHAT", and then nothing is to be freed. */
bool read_text(const char *name, size_t most, const char *what, run *text);

/* The same of bytes that were read; they are freed if they are no text. */
bool as_text(const char *name, size_t most, const char *what, run *text);

/* Where the text stands, for messages. */
typedef struct {
    shown_name file;
    size_t number; /* of the line, counted from 1 */
    char *rest;
} lines;

lines lines_of(const char *name, const run *text);

/* Cuts the next line off, without its comment ('#') and what ends it; NULL at the end. */
char *next_line(lines *at);

/* Cuts a line's words apart, at most so many; answers how many there are, or one more than `most` for any
 * higher number. */
size_t cut_words(char *line, char **words, size_t most);

/* Says "FILE:LINE: " and the message. */
void complain_line(const lines *at, const char *format, ...) __attribute__((format(printf, 2, 3)));

#endif
