/*
 * library check SECTION | find SECTION ADDRESSES | read SECTION [ADDRESSES]: dl_check of a section, dl_find_all of it
 * for the addresses of a file, one a line in hexadecimal; or the reading of the files alone.
 */
#include <boxantrel.h>
#include <stdio.h>
#include <stdlib.h>
#include <string.h>

enum { MOST = 1 << 24, MOST_ASKED = 1 << 20 };

static uint8_t section[MOST];
static uint64_t addresses[MOST_ASKED], units[MOST_ASKED];
static dl_row rows[MOST_ASKED];

int main(int words_count, char **words)
{
    FILE *file = words_count > 2 ? fopen(words[2], "rb") : NULL;
    if (file == NULL)
        return 2;
    size_t len = fread(section, 1, MOST, file), count = 0, found = 0;
    char line[64];
    file = words_count > 3 ? fopen(words[3], "r") : NULL;
    while (file != NULL && count < MOST_ASKED && fgets(line, sizeof line, file) != NULL)
        addresses[count++] = strtoull(line, NULL, 16);
    dl_fault fault;
    dl_counts counts;
    uint32_t status = DL_DONE;
    if (strcmp(words[1], "check") == 0)
        status = dl_check(section, len, false, &counts, &fault);
    else if (strcmp(words[1], "find") == 0)
        status = dl_find_all(section, len, false, addresses, count, rows, units, &fault);
    for (size_t i = 0; i < count; i++)
        found += units[i] != UINT64_MAX;
    printf("%zu of %zu\n", found, count);
    return status == DL_DONE ? 0 : 1;
}
