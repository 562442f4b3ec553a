#include <stdio.h>
#include <string.h>
#include <vinculampe.h>

int main(void)
{
    /* a command on bus 2, tagged with the time 10005, and a data word */
    static const uint8_t log[] = {0x12, 0x42, 0x10, 0xC0, 0x00, 0x00, 0x00, 0x40, 0x05, 0x32, 0x5F, 0x77, 0x80};
    static uint8_t capture[VIN_COMPOSED_MAX], back[VIN_LOG_MAX];
    vin_plan plan = VIN_PLAN_INIT(129, 1); /* words, tracks */
    plan.parity = 1;
    plan.kinds[2] = VIN_KIND_1553;

    vin_answer a = vin_plan_compose(&plan, log, sizeof log, NULL, 0, capture, sizeof capture);
    if (a.number != VIN_DONE) {
        fprintf(stderr, "refused by %u at %llu: %s\n", a.number, (unsigned long long)a.place, vin_text(a.number));
        return 1;
    }
    printf("%llu bytes:", (unsigned long long)a.bytes);
    for (int n = 0; n < 21; n += 3)
        printf(" %02X%02X%02X", capture[n], capture[n + 1], capture[n + 2]);

    a = vin_plan_read_closed(&plan, capture, a.bytes, back, sizeof back, NULL, 0);
    int same = a.number == VIN_DONE && a.bytes == sizeof log && memcmp(back, log, sizeof log) == 0;
    printf(" ..\nread back: %s\n", same ? "the same log" : "something else");
    return !same;
}
