/* The lister: a house log from standard input, its text to standard output. */
#include <stdio.h>

#include "independent.h"

int main(void)
{
    static uint8_t log[32769]; /* one byte above the limit, so that a long log is seen */
    static char text[IND_TEXT_MAX];
    size_t length = ind_list(log, fread(log, 1, sizeof log, stdin), text, sizeof text);
    return fwrite(text, 1, length, stdout) == length && fflush(stdout) == 0 ? 0 : 1;
}
