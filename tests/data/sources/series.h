/* What series.c offers. */
#ifndef SERIES_H
#define SERIES_H

#include "range.h"

int sum(const int *values, int count, struct range range);
int longest_run(const int *values, int count, struct range range);
_Noreturn void fail(int status);

#endif
