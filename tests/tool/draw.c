/* draw SEED COUNT FOLDER: house logs of drawn items, by document 01's table of fields, into FOLDER/0.log and so on. The first is
 * the empty log, the last is as long as a log can be. */
#include <inttypes.h>
#include <stdio.h>
#include <stdlib.h>
#include <string.h>

enum { LOG_MOST = 32768 };

static uint8_t bytes[LOG_MOST];
static size_t bits;
static uint64_t state;

static uint64_t draw(uint64_t below)
{
    state ^= state << 13;
    state ^= state >> 7;
    state ^= state << 17;
    return state % below;
}

static void put(unsigned width, uint64_t value)
{
    for (; width > 0; width--, bits++)
        if (value >> (width - 1) & 1)
            bytes[bits / 8] |= (uint8_t)(0x80 >> bits % 8);
}

/* Bits drawn, now and then all zeros or all ones. */
static void put_any(unsigned width)
{
    uint64_t all = (UINT64_C(1) << width) - 1, how = draw(8);
    put(width, how == 0 ? 0 : how == 1 ? all : draw(all + 1));
}

/* A micro or a response. */
static void put_fine(void)
{
    uint64_t how = draw(8);
    put(14, how == 0 ? 0 : how == 1 ? 9999 : draw(10000));
}

static void put_item(unsigned kind)
{
    static const unsigned part[] = {0, 1, 1, 1, 1, 2, 2, 1, 0}, word[] = {0, 16, 16, 16, 16, 32, 8, 16, 16};
    uint64_t timed = (kind == 1 || kind == 2 || kind == 5) && draw(2);
    put(4, kind);
    put_any(4);
    put_any(part[kind]);
    if (kind == 1 || kind == 2 || kind == 5)
        put(1, timed);
    put_any(word[kind]);
    if (timed && kind != 2)
        put_any(32);
    if (timed)
        put_fine();
}

/* Items up to so many bytes, their end mark counted: none is begun that might not fit. */
static void fill(size_t most)
{
    memset(bytes, 0, sizeof bytes);
    bits = 0;
    while (bits + 89 + 4 <= 8 * most)
        put_item(1 + (unsigned)draw(8));
    while (most == LOG_MOST && bits + 18 + 4 <= 8 * most)
        put_item(6); /* the shortest, so that the last byte is reached */
    put(4, 0);
}

int main(int count, char **words)
{
    if (count != 4)
        return 2;
    state = strtoull(words[1], NULL, 10) * UINT64_C(0x9E3779B97F4A7C15) | 1;
    int logs = atoi(words[2]);
    for (int n = 0; n < logs; n++) {
        char name[4096];
        fill(n == 0 ? 1 : n + 1 == logs ? LOG_MOST : (size_t)draw(n % 4 ? 300 : LOG_MOST) + 12);
        snprintf(name, sizeof name, "%s/%d.log", words[3], n);
        FILE *to = fopen(name, "wb");
        if (!to || fwrite(bytes, 1, (bits + 7) / 8, to) != (bits + 7) / 8 || fclose(to) != 0) {
            perror(name);
            return 1;
        }
    }
    return 0;
}
