/*
 * where [--all] [--keep-going] [--index | --list] FILE [ADDRESS..]: over an ELF file, or an index of one, what `dwline addr`
 * prints of the addresses; with --list what `dwline index --list` prints of the index; with --index the index itself.
 */
#include <boxantrel.h>
#include <inttypes.h>
#include <stdio.h>
#include <stdlib.h>
#include <string.h>

/* Reads all of a file. The answer is NULL where there is no such file or no memory. */
static uint8_t *read_all(const char *path, size_t *held)
{
    FILE *file = fopen(path, "rb");
    size_t room = 4096;
    uint8_t *read = file == NULL ? NULL : malloc(room);
    while (read != NULL) {
        *held += fread(read + *held, 1, room - *held, file);
        if (*held < room) {
            fclose(file);
            return read;
        }
        room *= 2;
        read = realloc(read, room);
    }
    return NULL;
}

/* Prints PATH:LINE or PATH:LINE:COLUMN. */
static void print_location(const dl_index *index, const dl_location *location)
{
    if (!location->is_found) {
        puts("?" "?:0");
        return;
    }
    size_t len = dl_index_path(index, location, NULL, 0);
    uint8_t *path = malloc(len + 1);
    if (path != NULL)
        fwrite(path, 1, dl_index_path(index, location, path, len), stdout);
    free(path);
    printf(":%" PRIu64, location->line);
    if (location->column != 0)
        printf(":%" PRIu64, location->column);
    putchar('\n');
}

/* Prints all stretches. */
static void list(const dl_index *index)
{
    uint64_t start, last;
    dl_location location;
    for (size_t i = 0; dl_index_stretch(index, i, &start, &last, &location) == DL_DONE; i++) {
        printf("0x%016" PRIx64 " ", start);
        if (last == UINT64_MAX)
            fputs("0x10000000000000000 ", stdout);
        else
            printf("0x%016" PRIx64 " ", last + 1);
        print_location(index, &location);
    }
}

/* Looks addresses up, all at once and each by itself. The answer is how many are told of. */
static int find(const dl_index *index, char **words, size_t count)
{
    int found = 0;
    uint64_t *addresses = malloc((count + 1) * sizeof *addresses);
    dl_location *locations = malloc((count + 1) * sizeof *locations);
    if (addresses == NULL || locations == NULL)
        exit(3);
    for (size_t i = 0; i < count; i++)
        addresses[i] = strtoull(words[i], NULL, 0);
    if (dl_index_find_many(index, addresses, count, locations) != DL_DONE)
        exit(4);
    for (size_t i = 0; i < count; i++) {
        dl_location alone = {.is_found = false};
        uint32_t status = dl_index_find(index, addresses[i], &alone);
        if ((status == DL_DONE) != locations[i].is_found || alone.line != locations[i].line ||
            alone.unit != locations[i].unit)
            exit(4);
        print_location(index, &locations[i]);
        found += locations[i].is_found;
    }
    free(addresses);
    free(locations);
    return found;
}

int main(int count, char **words)
{
    uint8_t how = 0;
    bool lists = false, writes = false;
    int at = 1;
    for (; at < count && strncmp(words[at], "--", 2) == 0; at++) {
        how |= strcmp(words[at], "--all") == 0 ? DL_ALL : 0;
        how |= strcmp(words[at], "--keep-going") == 0 ? DL_KEEP_GOING : 0;
        lists |= strcmp(words[at], "--list") == 0;
        writes |= strcmp(words[at], "--index") == 0;
    }
    size_t len = 0;
    uint8_t *file = at < count ? read_all(words[at], &len) : NULL;
    if (file == NULL) {
        fputs("where: no memory, or the file can't be read\n", stderr);
        return 3;
    }
    dl_index index;
    dl_index_fault why;
    dl_bytes made = {NULL, 0};
    dl_fault fault;
    int end = 0;
    if (dl_index_open(file, len, &index, &why) != DL_DONE) {
        uint8_t text[128];
        if (why.kind != DL_INDEX_MAGIC) {
            fprintf(stderr, "where: %.*s\n", (int)dl_index_fault_text(&why, text, sizeof text), (const char *)text);
            return 1;
        }
        uint32_t status = dl_index_build(file, len, how, &made, &fault);
        if (status == DL_NO_MEMORY) {
            fputs("where: out of memory\n", stderr);
            return 3;
        }
        if (status == DL_FAULT) {
            fprintf(stderr, "where: %.*s\n", (int)dl_fault_text(&fault, text, sizeof text), (const char *)text);
            end = 1;
        }
        if (made.bytes == NULL)
            return 1;
        if (dl_index_open(made.bytes, made.len, &index, &why) != DL_DONE)
            return 4;
    }
    if (writes)
        fwrite(index.bytes, 1, index.len, stdout);
    else if (lists)
        list(&index);
    else if (find(&index, words + at + 1, (size_t)(count - at - 1)) < count - at - 1)
        end = 1;
    dl_index_free(&made);
    free(file);
    return end;
}
