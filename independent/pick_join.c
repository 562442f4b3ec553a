/* Document 02, K7: pick and join. */
#include <string.h>

#include "rules.h"

/* A set of bus codes: bit c of the number is code c. */
static bool in_set(uint16_t buses, uint32_t bus)
{
    return buses >> bus & 1;
}

/* Writes the items of a log that has no fault, in order: those on the buses of the set. */
static void put_items(log_writer *made, const uint8_t *log, size_t log_len, uint16_t buses)
{
    uint64_t bit = 0;
    item i;
    while (log_next(log, log_len, &bit, &i) == STANDS_ITEM)
        if (in_set(buses, i.bus))
            log_put(made, &i);
}

/* "then 6": document 01's "output too short, or a log above 32,768", its place "bytes needed". */
static ind_answer hand_out(log_writer *made, uint8_t *out, size_t out_len)
{
    uint64_t bytes = log_end(made);
    if (bytes > LOG_MAX || out_len < bytes)
        return refused(6, bytes);
    memcpy(out, made->bytes, bytes);
    return (ind_answer){.bytes = bytes};
}

/* "Picking takes a log and a set of bus codes and gives the log of exactly the items on those buses, in order." */
ind_answer ind_pick(const uint8_t *log, size_t log_len, uint16_t buses, uint8_t *out, size_t out_len)
{
    log_writer made;
    ind_answer fault = log_fault(log, log_len);
    if (fault.number != 0)
        return fault;
    log_begin(&made);
    put_items(&made, log, log_len, buses);
    return hand_out(&made, out, out_len);
}

/* "Joining gives the first log's items, then the second's." "2 and 4 as composing finds them, first log before second" */
ind_answer ind_join(const uint8_t *first, size_t first_len, const uint8_t *second, size_t second_len, uint8_t *out, size_t out_len)
{
    log_writer made;
    ind_answer fault = log_fault(first, first_len);
    if (fault.number == 0)
        fault = log_fault(second, second_len);
    if (fault.number != 0)
        return fault;
    log_begin(&made);
    put_items(&made, first, first_len, 0xFFFF);
    put_items(&made, second, second_len, 0xFFFF);
    return hand_out(&made, out, out_len);
}
