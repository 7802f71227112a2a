/* Plays list P1 of document 01 through the C entries and prints what the bench prints for it: per step its ordinal, number and place, then
 * for each house reply R, place, seller, buyer and report. */
#include "kp_bench.h"

#include <stdio.h>

int main(void)
{
    static uint16_t record[KP_RECORD_LEN_MAX];
    static const uint16_t steps[][KP_STEP_LEN] = {
        {1, 3, 2}, {2, 2, 1}, {3, 3, 1, 2}, {4, 2, 2, 3}, {5, 4}, {31, 2, 2, 3}, {5, 6},
    };
    enum { COUNT = sizeof steps / sizeof steps[0] };
    uint8_t verdicts[COUNT] = {0};
    uint16_t n = 0;
    uint8_t number = kp_run(record, KP_RECORD_LEN_MAX, 8, &steps[0][0], COUNT * KP_STEP_LEN, verdicts, COUNT, &n);
    if (number != 0) {
        printf("refused\t%d\n", number);
        return 1;
    }

    unsigned place = 0;
    for (unsigned i = 0; i < COUNT; i++) {
        if (verdicts[i] == 0)
            place++;
        printf("%u\t%d\t%u\n", i + 1, verdicts[i], verdicts[i] == 0 ? place : 0);
    }
    for (unsigned p = 1; p <= n; p++) {
        const uint16_t *reply = record + (p - 1) * KP_MESSAGE_LEN;
        if (reply[0] == 5 && reply[1] == 1)
            printf("R\t%u\t%d\t%d\t%d\n", p, reply[7], reply[8], kp_report(record, KP_RECORD_LEN_MAX, n, p));
    }
    return 0;
}
