/* rows SECTION: address, file and line of each row of a little-endian section. */
#include <boxantrel.h>
#include <inttypes.h>
#include <stdio.h>
#include <stdlib.h>

static uint8_t section[1 << 24];

int main(int argc, char **argv)
{
    FILE *in = argc == 2 ? fopen(argv[1], "rb") : NULL;
    size_t len = in == NULL ? 0 : fread(section, 1, sizeof section, in);
    dl_unit unit;
    dl_fault fault;
    uint64_t offset = 0;
    uint32_t status;
    while ((status = dl_unit_at(section, len, 0, offset, &unit, &fault)) == DL_DONE) {
        size_t count = 0;
        dl_row *rows = malloc((unit.rows + 1) * sizeof *rows);
        if (rows == NULL || dl_rows_at(section, len, 0, offset, rows, unit.rows, &count, &fault) != DL_DONE)
            return 1;
        for (size_t i = 0; i < count; i++)
            printf("%#" PRIx64 " %" PRIu64 " %" PRIu64 "\n", rows[i].address, rows[i].file, rows[i].line);
        free(rows);
        offset += unit.length;
    }
    return status != DL_NO_ANSWER;
}
