/*
 * index INDEX: nanoseconds for a look-up of random addresses in an index, warm, the least of ROUNDS rounds: by a plain
 * search in C over its columns, and with -DLIBRARY by dl_index_find, one a call, and by dl_index_find_many.
 */
#include <stdbool.h>
#include <stdint.h>
#include <stdio.h>
#include <stdlib.h>
#include <string.h>
#include <time.h>
#ifdef LIBRARY
#include <boxantrel.h>
#endif

enum { ASKED = 1 << 20, ROUNDS = 7, COLUMNS = 5, HEADER = 128 };

static uint64_t addresses[ASKED];

/* An index, by the places of its columns. */
static const uint8_t *columns[COLUMNS];
static uint8_t widths[COLUMNS];
static uint64_t base, count;

static uint64_t number(const uint8_t *bytes, size_t size)
{
    uint64_t found = 0;
    memcpy(&found, bytes, size);
    return found;
}

static void open_columns(const uint8_t *bytes)
{
    base = number(bytes + 24, 8);
    count = number(bytes + 32, 8);
    memcpy(widths, bytes + 64, COLUMNS);
    const uint8_t *place = bytes + HEADER;
    for (int i = 0; i < COLUMNS; i++) {
        columns[i] = place;
        place += (count * widths[i] + 7) / 8 * 8;
    }
}

/* The last start that isn't above x, of a column whose numbers have this type. */
#define LAST_UPTO(name, type)                                                                       \
    static size_t name(uint64_t x)                                                                  \
    {                                                                                               \
        const type *starts = (const type *)columns[0];                                              \
        size_t low = 0, left = count;                                                               \
        while (left > 1) {                                                                          \
            size_t half = left / 2;                                                                 \
            low += starts[low + half] <= x ? half : 0;                                              \
            left -= half;                                                                           \
        }                                                                                           \
        return low;                                                                                 \
    }
LAST_UPTO(last_1, uint8_t)
LAST_UPTO(last_2, uint16_t)
LAST_UPTO(last_4, uint32_t)
LAST_UPTO(last_8, uint64_t)

/* What the columns have at the stretch of an address, in one sum. */
static uint64_t search(uint64_t address)
{
    if (address < base)
        return 0;
    uint64_t x = address - base;
    size_t k = widths[0] == 1 ? last_1(x) : widths[0] == 2 ? last_2(x) : widths[0] == 4 ? last_4(x) : last_8(x);
    uint64_t sum = 0;
    for (int i = 1; i < COLUMNS; i++)
        sum += number(columns[i] + k * widths[i], widths[i]);
    return sum;
}

static double now(void)
{
    struct timespec time;
    clock_gettime(CLOCK_MONOTONIC, &time);
    return time.tv_sec * 1e9 + time.tv_nsec;
}

int main(int words_count, char **words)
{
    FILE *file = words_count > 1 ? fopen(words[1], "rb") : NULL;
    if (file == NULL || fseek(file, 0, SEEK_END) != 0)
        return 2;
    size_t len = ftell(file);
    uint8_t *bytes = aligned_alloc(4096, (len + 4095) / 4096 * 4096);
    rewind(file);
    if (bytes == NULL || fread(bytes, 1, len, file) != len || len < HEADER)
        return 2;
    open_columns(bytes);
    uint64_t last = number(columns[0] + (count - 1) * widths[0], widths[0]), chance = 1;
    for (size_t i = 0; i < ASKED; i++) {
        chance = chance * 6364136223846793005u + 1442695040888963407u;
        addresses[i] = base + (chance >> 11) % (last + 1);
    }
    double least[3] = {1e18, 1e18, 1e18};
    uint64_t sum = 0;
    for (int round = 0; round < ROUNDS; round++) {
        double from = now();
        for (size_t i = 0; i < ASKED; i++)
            sum += search(addresses[i]);
        double spent = now() - from;
        least[0] = spent < least[0] ? spent : least[0];
#ifdef LIBRARY
        static dl_location locations[ASKED];
        dl_index index;
        dl_index_fault fault;
        if (dl_index_open(bytes, len, &index, &fault) != DL_DONE)
            return 1;
        from = now();
        for (size_t i = 0; i < ASKED; i++)
            sum += dl_index_find(&index, addresses[i], &locations[i]);
        spent = now() - from;
        least[1] = spent < least[1] ? spent : least[1];
        from = now();
        sum += dl_index_find_many(&index, addresses, ASKED, locations);
        spent = now() - from;
        least[2] = spent < least[2] ? spent : least[2];
#endif
    }
    printf("search %.1f\n", least[0] / ASKED);
#ifdef LIBRARY
    printf("find %.1f\nfind_many %.1f\n", least[1] / ASKED, least[2] / ASKED);
#endif
    fprintf(stderr, "%llu\n", (unsigned long long)sum);
    return 0;
}
