/* where FILE ADDRESS: path, line and column of an address, by an index that is made of the file. */
#include <boxantrel.h>
#include <inttypes.h>
#include <stdio.h>
#include <stdlib.h>

static uint8_t file[1 << 24], path[4096];

int main(int argc, char **argv)
{
    FILE *in = argc == 3 ? fopen(argv[1], "rb") : NULL;
    size_t len = in == NULL ? 0 : fread(file, 1, sizeof file, in);
    dl_bytes made;
    dl_fault fault;
    if (dl_index_build(file, len, 0, &made, &fault) != DL_DONE) {
        uint8_t text[128];
        size_t told = dl_fault_text(&fault, text, sizeof text);
        fprintf(stderr, "%.*s\n", (int)told, (const char *)text);
        return 1;
    }
    dl_index index;
    dl_index_fault why;
    dl_location at;
    if (dl_index_open(made.bytes, made.len, &index, &why) != DL_DONE
        || dl_index_find(&index, strtoull(argv[2], NULL, 0), &at) != DL_DONE
        || (len = dl_index_path(&index, &at, path, sizeof path)) > sizeof path)
        return 1;
    printf("%.*s:%" PRIu64 ":%" PRIu64 "\n", (int)len, (const char *)path, at.line, at.column);
    dl_index_free(&made);
}
