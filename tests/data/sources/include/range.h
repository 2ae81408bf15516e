/* Inline functions, so that rows of other files name this one as well. */
#ifndef RANGE_H
#define RANGE_H

struct range {
    int low;
    int high;
};

static inline int within(struct range range, int value)
{
    return range.low <= value && value <= range.high;
}

static inline int clamp(struct range range, int value)
{
    if (value < range.low)
        return range.low;
    return value > range.high ? range.high : value;
}

#endif
