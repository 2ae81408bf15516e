/* The entry point. It is built without a C library and never run. */
#include "series.h"

static const int values[] = { 3, 1, 4, 1, 5, 9, 2, 6, 5, 3, 5, 8 };

enum { COUNT = sizeof values / sizeof values[0] };

/* As a generated parser would have it: another file's name and far line numbers. */
#line 70000 "grammar.y"
static int reduce(int state, int symbol)
{
    switch (state) {
    case 0: return symbol + 1;
    case 1: return symbol * 2;
    case 2: return symbol - 3;
    default: return state;
    }
}
#line 20 "main.c"

void _start(void)
{
    struct range range = { 2, 6 };
    int total = sum(values, COUNT, range);
    int run = longest_run(values, COUNT, range);

    if (reduce(total, run) < 0)
        fail(total);
    for (;;)
        ;
}
