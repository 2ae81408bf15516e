/* Loops over a series of numbers. */
#include "series.h"

int sum(const int *values, int count, struct range range)
{
    int total = 0;

    for (int i = 0; i < count; i++)
        total += clamp(range, values[i]);
    return total;
}

int longest_run(const int *values, int count, struct range range)
{
    int longest = 0;
    int run = 0;

    for (int i = 0; i < count; i++) {
        run = within(range, values[i]) ? run + 1 : 0;
        if (run > longest)
            longest = run;
    }
    return longest;
}

/* A function in a section of its own, so that the unit has two sequences. */
__attribute__((cold, noinline, section(".text.fail")))
_Noreturn void fail(int status)
{
    volatile int last = status;

    for (;;)
        last++;
}
