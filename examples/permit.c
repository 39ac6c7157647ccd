/*
 * Holds a week of runs against pump permits, each so many minutes over any w runs in a row.
 * From the root of a checkout, after `rt lib` in crates/liuwdom:
 *
 *     cc -Iinclude examples/permit.c crates/liuwdom/out/libliuwdom.a -o permit && ./permit
 */
#include <inttypes.h>
#include <stdio.h>

#include "liuwdom.h"

static void hold(const uint32_t *runs, size_t count, uint64_t w, uint64_t limit)
{
    uint64_t answer[LIUWDOM_ANSWER];
    uint64_t number = liuwdom_window(runs, count, w, limit, answer);
    const uint64_t *values = answer + LIUWDOM_AT_VALUES;
    printf("%" PRIu64 " minutes over %" PRIu64 " runs: ", limit, w);
    if (number != 0)
        printf("refused, %" PRIu64 "\n", number);
    else if (values[0] == 0)
        printf("kept\n");
    else
        printf("exceeded at run %" PRIu64 "\n", values[1]);
}

int main(void)
{
    const uint32_t week[] = {40, 20, 30, 45, 30, 0, 50};
    size_t count = sizeof week / sizeof *week;
    hold(week, count, 3, 90);
    hold(week, count, 3, 105);
    hold(week, count, LIUWDOM_WINDOW + 1, 90);
    return 0;
}
