/*
 * look [--big] [--older SIZE] [--keep-going] [--rows | --copy | --addr LINE_STR STR ADDRESS.. | --lines LINE_STR STR PATH
 * LINE.. | --exact-lines LINE_STR STR PATH LINE.. | --sources LINE_STR STR | --findings LINE_STR STR | ADDRESS..]: of the
 * section on standard input, what `dwline check` prints of it; with --rows the rows that `dwline dump` prints, with --copy
 * what `dwline copy` writes, with --addr and the files of both string sections what `dwline addr` prints; with --lines what
 * `dwline lines` prints of each line of the path, but for the paths, and with --exact-lines what it prints with --exact; with
 * --sources what `dwline sources --rows --md5` prints; with --findings the numbers of what `dwline lint` finds; or with
 * addresses the row that answers for each as `dwline find` prints it. With --older units of versions 2 to 4 are read too, with
 * addresses of this size. With --keep-going the units after a damaged one count too, and answer with --addr, --lines,
 * --sources and --findings; the first fault is said.
 */
#include <boxantrel.h>
#include <inttypes.h>
#include <stdio.h>
#include <stdlib.h>
#include <string.h>

/* The section. */
static uint8_t *bytes;
static size_t len;
static uint8_t how;

/* The string sections .debug_line_str and .debug_str. */
static uint8_t *texts[2];
static size_t texts_len[2];

/* Reads all of a file. The answer is NULL where there is no such file or no memory. */
static uint8_t *read_all(FILE *file, size_t *held)
{
    size_t room = 4096;
    uint8_t *read = file == NULL ? NULL : malloc(room);
    while (read != NULL) {
        *held += fread(read + *held, 1, room - *held, file);
        if (*held < room)
            return read;
        room *= 2;
        read = realloc(read, room);
    }
    return NULL;
}

static void print_row(const dl_row *row)
{
    static const char *const words[] = {" stmt", " block", " prologue", " epilogue", " end"};
    printf("row 0x%016" PRIx64 " %u %" PRIu64 " %" PRIu64 " %" PRIu64, row->address, (unsigned)row->op_index, row->file,
           row->line, row->column);
    for (unsigned bit = 0; bit < 5; bit++)
        if (row->flags >> bit & 1)
            fputs(words[bit], stdout);
    if (row->isa != 0)
        printf(" isa %" PRIu64, row->isa);
    if (row->discriminator != 0)
        printf(" disc %" PRIu64, row->discriminator);
    putchar('\n');
}

/* Says why there is no answer, and gives the program's status. */
static int refused(uint32_t status, const dl_fault *fault)
{
    fflush(stdout);
    if (status == DL_OTHER_VERSION) {
        fputs("look: a unit that is not of version 5\n", stderr);
        return 1;
    }
    if (status == DL_FAULT) {
        uint8_t text[128];
        fprintf(stderr, "look: %.*s\n", (int)dl_fault_text(fault, text, sizeof text), (const char *)text);
        return 1;
    }
    fputs("look: out of memory\n", stderr);
    return 3;
}

static int check(void)
{
    dl_counts counts;
    dl_fault fault;
    uint32_t status = dl_check(bytes, len, how, &counts, &fault);
    bool goes_on = how & DL_KEEP_GOING;
    if (status == DL_DONE || (status == DL_FAULT && goes_on)) {
        printf("units %" PRIu64 " skipped %" PRIu64 " sequences %" PRIu64 " rows %" PRIu64, counts.units,
               counts.skipped, counts.sequences, counts.rows);
        if (goes_on)
            printf(" damaged %" PRIu64, counts.damaged);
        putchar('\n');
    }
    return status == DL_DONE ? 0 : refused(status, &fault);
}

static int find(const char *word)
{
    dl_row row;
    dl_fault fault;
    uint64_t unit;
    uint32_t status = dl_find(bytes, len, how, strtoull(word, NULL, 16), 0, &row, &unit, &fault);
    if (status == DL_DONE)
        print_row(&row);
    else if (status == DL_NO_ANSWER)
        puts("no line for this address");
    else
        return refused(status, &fault);
    return 0;
}

/* What is found of addresses: for each its row, the unit of that, and the number of the address. */
struct located {
    uint64_t *addresses, *units, *files;
    dl_row *rows;
    size_t *by_unit;         /* the numbers, those of each unit side by side */
    size_t *begins, *ends;   /* where in `paths` the path of each row begins and ends */
    size_t *unit_ends;       /* what dl_paths_at tells of one unit */
    uint8_t *paths;
    size_t used, room;
};

/* The units that by_unit is sorted by. */
static const uint64_t *sorted_units;

static int compare_units(const void *a, const void *b)
{
    uint64_t one = sorted_units[*(const size_t *)a], other = sorted_units[*(const size_t *)b];
    return one < other ? -1 : one > other;
}

static void sort_by_unit(struct located *all, size_t count)
{
    for (size_t i = 0; i < count; i++)
        all->by_unit[i] = i;
    sorted_units = all->units;
    qsort(all->by_unit, count, sizeof *all->by_unit, compare_units);
}

/* Adds the paths of the files of a unit to the others, and gives the status of the call. */
static uint32_t add_paths(struct located *all, uint64_t unit, size_t count, dl_fault *fault)
{
    for (;;) {
        uint8_t *paths = all->paths + all->used;
        uint32_t status = dl_paths_at(bytes, len, how, unit, all->files, count, texts[0], texts_len[0], texts[1],
                                      texts_len[1], paths, all->room - all->used, all->unit_ends, fault);
        if (status != DL_NO_ROOM)
            return status;
        size_t room = 2 * all->room + all->unit_ends[count - 1];
        paths = realloc(all->paths, room);
        if (paths == NULL)
            return DL_NO_MEMORY;
        all->paths = paths;
        all->room = room;
    }
}

/* Tells the paths of all rows, each unit read once. */
static uint32_t find_paths(struct located *all, size_t count, dl_fault *fault)
{
    sort_by_unit(all, count);
    for (size_t from = 0, to; from < count; from = to) {
        const size_t *numbers = all->by_unit + from;
        uint64_t unit = all->units[numbers[0]];
        if (unit == UINT64_MAX)
            break;
        for (to = from; to < count && all->units[all->by_unit[to]] == unit; to++)
            all->files[to - from] = all->rows[all->by_unit[to]].file;
        uint32_t status = add_paths(all, unit, to - from, fault);
        if (status != DL_DONE)
            return status;
        for (size_t i = 0; i < to - from; i++) {
            all->begins[numbers[i]] = all->used + (i > 0 ? all->unit_ends[i - 1] : 0);
            all->ends[numbers[i]] = all->used + all->unit_ends[i];
        }
        all->used += all->unit_ends[to - from - 1];
    }
    return DL_DONE;
}

static void print_locations(const struct located *all, size_t count)
{
    for (size_t i = 0; i < count; i++) {
        if (all->units[i] == UINT64_MAX) {
            puts("??:0");
            continue;
        }
        fwrite(all->paths + all->begins[i], 1, all->ends[i] - all->begins[i], stdout);
        printf(":%" PRIu64, all->rows[i].line);
        if (all->rows[i].column != 0)
            printf(":%" PRIu64, all->rows[i].column);
        putchar('\n');
    }
}

/* Looks all addresses up in one pass, and prints where they are. */
static uint32_t locate_all(struct located *all, char **words, size_t count, dl_fault *fault)
{
    for (size_t i = 0; i < count; i++) {
        all->addresses[i] = strtoull(words[i], NULL, 16);
        all->units[i] = UINT64_MAX;
    }
    dl_fault other;
    uint32_t status = dl_find_all(bytes, len, how, all->addresses, count, all->rows, all->units, fault);
    uint32_t told = find_paths(all, count, &other);
    if (told == DL_DONE)
        print_locations(all, count);
    else if (status == DL_DONE)
        *fault = other;
    return status == DL_DONE ? told : status;
}

static int locate(char **words, size_t count)
{
    uint64_t *numbers = malloc((3 * count + 1) * sizeof *numbers);
    size_t *places = malloc((4 * count + 1) * sizeof *places);
    struct located all = {
        .addresses = numbers,
        .units = numbers + count,
        .files = numbers + 2 * count,
        .rows = malloc((count + 1) * sizeof *all.rows),
        .by_unit = places,
        .begins = places + count,
        .ends = places + 2 * count,
        .unit_ends = places + 3 * count,
        .paths = malloc(1),
    };
    dl_fault fault;
    uint32_t status = DL_NO_MEMORY;
    if (numbers != NULL && places != NULL && all.rows != NULL && all.paths != NULL)
        status = locate_all(&all, words, count, &fault);
    free(numbers);
    free(places);
    free(all.rows);
    free(all.paths);
    return status == DL_DONE ? 0 : refused(status, &fault);
}

static void print_places(const dl_place *places, size_t count)
{
    if (count == 0)
        puts("??");
    for (size_t i = 0; i < count; i++) {
        printf("0x%016" PRIx64 " %" PRIu64, places[i].address, places[i].line);
        if (places[i].column != 0)
            printf(":%" PRIu64, places[i].column);
        puts(places[i].prologue_end ? " prologue" : "");
    }
}

/* Finds the places of a line, in as much room as they want, and gives the status of the call. */
static uint32_t find_line(const char *path, uint64_t line, bool exact, dl_place **places, size_t *count, dl_fault *fault)
{
    for (size_t room = 16;; room = *count) {
        free(*places);
        *places = malloc(room * sizeof **places);
        *count = 0;
        if (*places == NULL)
            return DL_NO_MEMORY;
        uint32_t status = dl_lines(bytes, len, how, texts[0], texts_len[0], texts[1], texts_len[1], (const uint8_t *)path,
                                   strlen(path), line, exact, *places, room, count, fault);
        if (*count <= room)
            return status;
    }
}

/* Prints the places of each line of a path; the fault of the section is said at the end. */
static int find_lines(const char *path, char **lines, size_t count, bool exact)
{
    uint32_t status = DL_DONE;
    dl_fault fault;
    for (size_t i = 0; i < count && status != DL_NO_MEMORY; i++) {
        dl_place *places = NULL;
        size_t found = 0;
        status = find_line(path, strtoull(lines[i], NULL, 10), exact, &places, &found, &fault);
        if (status != DL_NO_MEMORY)
            print_places(places, found);
        free(places);
    }
    return status == DL_DONE || status == DL_NO_ANSWER ? 0 : refused(status, &fault);
}

static void print_sources(const dl_source *sources, size_t count, const uint8_t *paths)
{
    for (size_t i = 0; i < count; i++) {
        printf("%" PRIu64 " %" PRIu64 " ", sources[i].rows, sources[i].bytes);
        for (size_t byte = 0; sources[i].has_md5 && byte < sizeof sources[i].md5; byte++)
            printf("%02x", sources[i].md5[byte]);
        fputs(sources[i].has_md5 ? " " : "- ", stdout);
        fwrite(paths + sources[i].path_begin, 1, sources[i].path_len, stdout);
        putchar('\n');
    }
}

/* Prints the source files, for which more room is taken where they want it; the fault of the section is said at the end. */
static int list_sources(void)
{
    size_t room = 4, paths_room = 64;
    for (;;) {
        size_t count = 0, paths_len = 0;
        dl_source *sources = malloc(room * sizeof *sources);
        uint8_t *paths = malloc(paths_room);
        dl_fault fault;
        uint32_t status = DL_NO_MEMORY;
        if (sources != NULL && paths != NULL)
            status = dl_sources(bytes, len, how, texts[0], texts_len[0], texts[1], texts_len[1], sources, room, &count, paths,
                                paths_room, &paths_len, &fault);
        bool is_all = count <= room && paths_len <= paths_room;
        if (is_all)
            print_sources(sources, count, paths);
        free(sources);
        free(paths);
        if (is_all)
            return status == DL_DONE ? 0 : refused(status, &fault);
        room = count > room ? count : room;
        paths_room = paths_len > paths_room ? paths_len : paths_room;
    }
}

static void print_findings(const dl_finding *findings, size_t count)
{
    for (size_t i = 0; i < count; i++) {
        const dl_finding *one = &findings[i];
        printf("%" PRIu64 " %" PRIu64 " %" PRIu64 " %" PRIu64 " %" PRIu64, one->offset, one->rule, one->row, one->address,
               one->op_index);
        for (size_t k = 0; k < 4; k++)
            printf(" %" PRIu64, one->numbers[k]);
        putchar('\n');
    }
}

/* Prints the findings, for which more room is taken where they want it; the fault of the section is said at the end. */
static int list_findings(void)
{
    size_t room = 4;
    for (;;) {
        size_t count = 0;
        dl_finding *findings = malloc(room * sizeof *findings);
        dl_fault fault;
        uint32_t status = DL_NO_MEMORY;
        if (findings != NULL)
            status = dl_findings(bytes, len, how, UINT32_MAX, texts[0], texts_len[0], texts[1], texts_len[1], findings, room,
                                 &count, &fault);
        bool is_all = count <= room;
        if (is_all)
            print_findings(findings, count);
        free(findings);
        if (is_all)
            return status == DL_DONE || status == DL_NO_ANSWER ? 0 : refused(status, &fault);
        room = count;
    }
}

/* Prints the rows of the unit at the offset, those before a fault too, and gives the status of the call. */
static uint32_t print_rows(uint64_t offset, dl_fault *fault)
{
    size_t count = 0;
    uint32_t status = dl_rows_at(bytes, len, how, offset, NULL, 0, &count, fault);
    if (count == 0)
        return status;
    dl_row *rows = malloc(count * sizeof *rows);
    if (rows == NULL)
        return DL_NO_MEMORY;
    status = dl_rows_at(bytes, len, how, offset, rows, count, &count, fault);
    if (status == DL_DONE || status == DL_FAULT)
        for (size_t i = 0; i < count; i++)
            print_row(&rows[i]);
    free(rows);
    return status;
}

static int list(void)
{
    dl_unit unit = {0};
    dl_fault fault;
    for (;;) {
        uint32_t status = print_rows(unit.offset + unit.length, &fault);
        if (status == DL_DONE)
            status = dl_unit_at(bytes, len, how, unit.offset + unit.length, &unit, &fault);
        if (status == DL_NO_ANSWER)
            return 0;
        if (status != DL_DONE)
            return refused(status, &fault);
    }
}

static int copy(void)
{
    size_t room = len;
    dl_fault fault;
    for (;;) {
        uint8_t *out = malloc(room + 1);
        if (out == NULL)
            return refused(DL_NO_MEMORY, &fault);
        uint32_t status = dl_copy(bytes, len, how, out, room, &room, &fault);
        if (status == DL_DONE)
            fwrite(out, 1, room, stdout);
        free(out);
        if (status != DL_NO_ROOM)
            return status == DL_DONE ? 0 : refused(status, &fault);
    }
}

int main(int count, char **words)
{
    int at = 1;
    if (at < count && strcmp(words[at], "--big") == 0) {
        how |= DL_BIG;
        at++;
    }
    if (at + 1 < count && strcmp(words[at], "--older") == 0) {
        how |= (uint8_t)(2 * atoi(words[at + 1]));
        at += 2;
    }
    if (at < count && strcmp(words[at], "--keep-going") == 0) {
        how |= DL_KEEP_GOING;
        at++;
    }
    bytes = read_all(stdin, &len);
    bool has_all = bytes != NULL;
    bool is_addr = at + 2 < count && strcmp(words[at], "--addr") == 0;
    bool is_exact = at + 3 < count && strcmp(words[at], "--exact-lines") == 0;
    bool is_lines = is_exact || (at + 3 < count && strcmp(words[at], "--lines") == 0);
    bool is_sources = at + 2 < count && strcmp(words[at], "--sources") == 0;
    bool is_findings = at + 2 < count && strcmp(words[at], "--findings") == 0;
    for (int i = 0; i < 2 && (is_addr || is_lines || is_sources || is_findings); i++) {
        FILE *file = fopen(words[at + 1 + i], "rb");
        texts[i] = read_all(file, &texts_len[i]);
        has_all = has_all && texts[i] != NULL;
        if (file != NULL)
            fclose(file);
    }
    if (!has_all) {
        fputs("look: no memory, or a file can't be read\n", stderr);
        return 3;
    }
    int status = 0;
    if (at == count)
        status = check();
    else if (strcmp(words[at], "--rows") == 0)
        status = list();
    else if (strcmp(words[at], "--copy") == 0)
        status = copy();
    else if (is_addr)
        status = locate(words + at + 3, (size_t)(count - at - 3));
    else if (is_lines)
        status = find_lines(words[at + 3], words + at + 4, (size_t)(count - at - 4), is_exact);
    else if (is_sources)
        status = list_sources();
    else if (is_findings)
        status = list_findings();
    else
        for (; at < count && status == 0; at++)
            status = find(words[at]);
    free(bytes);
    free(texts[0]);
    free(texts[1]);
    return status;
}
