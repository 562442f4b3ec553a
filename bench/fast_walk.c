#include "fast_walk.h"

form forms[128];

static form form_of(uint32_t kind, uint32_t bits)
{
    static const uint8_t shortest[16] = {0, 26, 26, 25, 25, 43, 18, 25, 24};
    uint32_t flag = kind == 5 ? bits & 1 : kind == 1 || kind == 2 ? bits >> 1 & 1 : 0;
    return (form){(uint8_t)(shortest[kind] + (!flag ? 0 : kind == 2 ? 14 : 46)), (uint8_t)flag};
}

__attribute__((constructor)) static void fill_forms(void)
{
    for (uint32_t n = 0; n < 128; n++)
        forms[n] = form_of(n >> 3, n & 7);
}

vin_answer refuse_log_alone(const uint8_t *log, size_t log_len)
{
    fast_plan every = {.used_1553 = 0xFFFF, .used_arinc = 0xFFFF};
    return log_len > VIN_LOG_MAX ? refused(2, 0) : refuse_log(&every, log, log_len);
}
