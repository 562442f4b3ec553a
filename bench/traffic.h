/* The benchmark's rows: logs of several kinds of traffic, by several plans, of several sizes; and logs alone. */
#ifndef TRAFFIC_H
#define TRAFFIC_H

#include <stddef.h>
#include <stdint.h>

typedef struct {
    char name[64];
    uint32_t words, tracks, frame_time, crc, parity;
    uint8_t kinds[16];
    uint8_t log[32768];
    size_t log_len;
    int items;
    uint8_t times[8 * 128];
    size_t times_len;
    int then_largest; /* the capture is also read with fill up to the limit behind it */
} traffic;

/* Makes row n; 0 if there is none. Each drawing of it has another log of the same traffic and size. */
int traffic_row(traffic *t, int n, int drawing);

/* Writes a group of fill by the row's plan, without CRC and frame time; its bytes. */
size_t traffic_fill(const traffic *t, uint8_t *to);

/* Makes row n of the logs alone, without a plan; 0 if there is none. */
int traffic_log(traffic *t, int n);

#endif
