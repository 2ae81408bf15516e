/*
 * nothing SECTION LINE_STR: each call with null pointers where there are no bytes, no elements or no room, over no
 * section, and over the section tests/data/gcc-O2 has, whose first unit has 59 rows and the file 1
 * `/boxantrel/series.c`, by a string section that has it or without one; and indices of nothing, and of that section.
 */
#include <boxantrel.h>
#include <stdio.h>
#include <stdlib.h>
#include <string.h>

static uint8_t section[4096], line_str[4096];
static size_t len, line_str_len;

static void wanted(bool holds, const char *what)
{
    if (!holds) {
        fprintf(stderr, "nothing: %s\n", what);
        exit(1);
    }
}

static size_t read_file(const char *path, uint8_t *bytes, size_t most)
{
    FILE *file = fopen(path, "rb");
    wanted(file != NULL, path);
    size_t held = fread(bytes, 1, most, file);
    fclose(file);
    return held;
}

/* No section, and nothing besides. */
static void without_section(void)
{
    dl_counts counts;
    dl_fault fault;
    dl_unit unit;
    dl_row row;
    size_t length = 7;
    uint64_t at;
    wanted(dl_check(NULL, 0, false, &counts, &fault) == DL_DONE, "dl_check of nothing");
    wanted(counts.units + counts.skipped + counts.sequences + counts.rows + counts.damaged == 0, "counts of nothing");
    wanted(dl_check(NULL, 0, DL_KEEP_GOING, &counts, &fault) == DL_DONE && counts.damaged == 0,
           "dl_check of nothing around damaged units");
    wanted(dl_unit_at(NULL, 0, false, 0, &unit, &fault) == DL_NO_ANSWER, "dl_unit_at of nothing");
    wanted(dl_rows_at(NULL, 0, false, 0, NULL, 0, &length, &fault) == DL_NO_ANSWER, "dl_rows_at of nothing");
    wanted(dl_path_at(NULL, 0, false, 0, 1, NULL, 0, NULL, 0, NULL, 0, &length, &fault) == DL_NO_ANSWER,
           "dl_path_at of nothing");
    wanted(dl_paths_at(NULL, 0, false, 0, NULL, 0, NULL, 0, NULL, 0, NULL, 0, NULL, &fault) == DL_NO_ANSWER,
           "dl_paths_at of nothing");
    wanted(dl_find(NULL, 0, false, 0, 0, &row, &at, &fault) == DL_NO_ANSWER, "dl_find in nothing");
    wanted(dl_find_all(NULL, 0, false, NULL, 0, NULL, NULL, &fault) == DL_DONE, "dl_find_all in nothing");
    wanted(dl_find_all(NULL, 0, DL_KEEP_GOING, NULL, 0, NULL, NULL, &fault) == DL_DONE,
           "dl_find_all in nothing around damaged units");
    wanted(dl_lines(NULL, 0, 0, NULL, 0, NULL, 0, NULL, 0, 8, false, NULL, 0, &length, &fault) == DL_NO_ANSWER,
           "dl_lines of nothing");
    wanted(dl_lines(NULL, 0, DL_KEEP_GOING, NULL, 0, NULL, 0, NULL, 0, 8, true, NULL, 0, &length, &fault) == DL_NO_ANSWER,
           "dl_lines of nothing around damaged units");
    wanted(length == 7, "a length that isn't told");
    size_t count = 7;
    wanted(dl_sources(NULL, 0, 0, NULL, 0, NULL, 0, NULL, 0, &count, NULL, 0, &length, &fault) == DL_DONE
           && count == 0 && length == 0, "dl_sources of nothing");
    wanted(dl_sources(NULL, 0, DL_KEEP_GOING, NULL, 0, NULL, 0, NULL, 0, &count, NULL, 0, &length, &fault) == DL_DONE
           && count == 0 && length == 0, "dl_sources of nothing around damaged units");
    count = 7;
    wanted(dl_findings(NULL, 0, 0, UINT32_MAX, NULL, 0, NULL, 0, NULL, 0, &count, &fault) == DL_NO_ANSWER && count == 7,
           "dl_findings of nothing");
    wanted(dl_findings(NULL, 0, DL_KEEP_GOING, UINT32_MAX, NULL, 0, NULL, 0, NULL, 0, &count, &fault) == DL_NO_ANSWER && count == 7,
           "dl_findings of nothing around damaged units");
    wanted(dl_copy(NULL, 0, false, NULL, 0, &length, &fault) == DL_DONE && length == 0, "dl_copy of nothing");
}

/* No index, no file, and no room. */
static void without_index(void)
{
    dl_index index;
    dl_index_fault why;
    dl_location location = {.is_found = false};
    dl_bytes made;
    dl_fault fault;
    size_t length = 7;
    uint64_t start, last;
    wanted(dl_index_open(NULL, 0, &index, &why) == DL_FAULT && why.kind == DL_INDEX_MAGIC, "an index of nothing");
    wanted(dl_index_open_unchecked(NULL, 0, &index, &why) == DL_FAULT && why.kind == DL_INDEX_MAGIC,
           "an unchecked index of nothing");
    wanted(dl_index_fault_text(&why, NULL, 0) == 12, "the text of no index");
    wanted(dl_index_build(NULL, 0, 0, &made, &fault) == DL_FAULT && fault.kind == DL_NOT_ELF && made.bytes == NULL,
           "the index of no file");
    wanted(dl_fault_text(&fault, NULL, 0) == 15, "the text of no file");
    dl_index_free(&made);
    wanted(dl_index_build_into(NULL, 0, 0, NULL, 0, &length, &fault) == DL_FAULT && length == 0, "no index in no room");
    wanted(dl_index_build_section(NULL, 0, 0, NULL, 0, NULL, 0, NULL, 0, &made, &fault) == DL_DONE,
           "the index of no section");
    wanted(dl_index_open(made.bytes, made.len, &index, &why) == DL_DONE && index.stretches == 0 && !index.all,
           "an index without stretches");
    wanted(dl_index_find(&index, 0x401008, &location) == DL_NO_ANSWER, "an answer of none");
    index.bytes = NULL;
    index.len = 0;
    wanted(dl_index_find(&index, 0, &location) == DL_FAULT, "dl_index_find in nothing");
    wanted(dl_index_find_many(&index, NULL, 0, NULL) == DL_DONE, "dl_index_find_many of nothing");
    wanted(dl_index_stretch(&index, 0, &start, &last, &location) == DL_FAULT, "a stretch of nothing");
    wanted(dl_index_path(&index, &location, NULL, 0) == 2, "the path of nothing");
    wanted(dl_index_build_section_into(NULL, 0, 0, NULL, 0, NULL, 0, NULL, 0, NULL, 0, &length, &fault) == DL_NO_ROOM &&
               length == made.len,
           "an index in no room");
    dl_index_free(&made);
}

/* The index of a section, with its strings, in ranges of code or in none. */
static void index_of_section(void)
{
    static const dl_range other = {.start = 0x500000, .size = 16}, all[] = {{0, 1}, {0x401000, 0x1000}};
    static const uint8_t path[] = "/boxantrel/series.c";
    dl_bytes made;
    dl_index index;
    dl_index_fault why;
    dl_fault fault;
    dl_location location;
    uint8_t room[64];
    wanted(dl_index_build_section(section, len, 0, line_str, line_str_len, NULL, 0, &other, 1, &made, &fault) == DL_DONE &&
               dl_index_open(made.bytes, made.len, &index, &why) == DL_DONE && index.stretches == 0,
           "no sequence in code");
    dl_index_free(&made);
    wanted(dl_index_build_section(section, len, DL_ALL, line_str, line_str_len, NULL, 0, &other, 1, &made, &fault) ==
                   DL_DONE &&
               dl_index_open(made.bytes, made.len, &index, &why) == DL_DONE && index.stretches > 0 && index.all,
           "all sequences");
    dl_index_free(&made);
    wanted(dl_index_build_section(section, len, 0, line_str, line_str_len, NULL, 0, all, 2, &made, &fault) == DL_DONE &&
               dl_index_open(made.bytes, made.len, &index, &why) == DL_DONE && index.build_id_len == 0,
           "the index of a section");
    wanted(dl_index_find(&index, 0x401008, &location) == DL_DONE && location.line == 8 && location.unit == 0,
           "an address in the index of a section");
    wanted(dl_index_path(&index, &location, room, sizeof room) == sizeof path - 1 &&
               memcmp(room, path, sizeof path - 1) == 0,
           "a path in the index of a section");
    dl_index_free(&made);
}

/* A section, and nothing besides. */
static void without_room(void)
{
    dl_fault fault = {52, 0, DL_OPCODE_OVERRUN};
    size_t length;
    wanted(dl_fault_text(&fault, NULL, 0) == strlen("damage at 0x34: unit ends inside an opcode"), "dl_fault_text");
    wanted(dl_rows_at(section, len, false, 0, NULL, 0, &length, &fault) == DL_DONE && length == 59, "dl_rows_at");
    wanted(dl_path_at(section, len, false, 0, 1, line_str, line_str_len, NULL, 0, NULL, 0, &length, &fault) == DL_DONE
           && length == strlen("/boxantrel/series.c"), "dl_path_at");
    wanted(dl_path_at(section, len, false, 0, 1, NULL, 0, NULL, 0, NULL, 0, &length, &fault) == DL_DONE
           && length < strlen("/boxantrel/series.c"), "dl_path_at without string sections");
    wanted(dl_paths_at(section, len, false, 0, NULL, 0, line_str, line_str_len, NULL, 0, NULL, 0, NULL, &fault)
           == DL_DONE, "dl_paths_at of no file");
    uint64_t files[] = {1, 1};
    size_t ends[2];
    wanted(dl_paths_at(section, len, false, 0, files, 2, line_str, line_str_len, NULL, 0, NULL, 0, ends, &fault)
           == DL_NO_ROOM && ends[0] == strlen("/boxantrel/series.c") && ends[1] == 2 * ends[0], "dl_paths_at");
    wanted(dl_find_all(section, len, false, NULL, 0, NULL, NULL, &fault) == DL_DONE, "dl_find_all of no address");
    const uint8_t *path = (const uint8_t *)"series.c";
    wanted(dl_lines(section, len, 0, line_str, line_str_len, NULL, 0, path, 8, 7, false, NULL, 0, &length, &fault) == DL_DONE
           && length == 2, "dl_lines");
    length = 7;
    wanted(dl_lines(section, len, 0, line_str, line_str_len, NULL, 0, path, 8, 7, true, NULL, 0, &length, &fault)
           == DL_NO_ANSWER && length == 7, "dl_lines of that line alone");
    wanted(dl_lines(section, len, 0, NULL, 0, NULL, 0, path, 8, 7, false, NULL, 0, &length, &fault) == DL_NO_ANSWER,
           "dl_lines without string sections");
    wanted(dl_lines(section, len, 0, line_str, line_str_len, NULL, 0, NULL, 0, 7, false, NULL, 0, &length, &fault)
           == DL_NO_ANSWER, "dl_lines of no path");
    size_t count;
    wanted(dl_sources(section, len, 0, line_str, line_str_len, NULL, 0, NULL, 0, &count, NULL, 0, &length, &fault) == DL_DONE
           && count == 5 && length == strlen("/boxantrel/grammar.y/boxantrel/include/range.h/boxantrel/main.c"
                                             "/boxantrel/series.c/boxantrel/series.h"), "dl_sources");
    wanted(dl_sources(section, len, 0, NULL, 0, NULL, 0, NULL, 0, &count, NULL, 0, &length, &fault) == DL_DONE
           && count == 0 && length == 0, "dl_sources without string sections");
    wanted(dl_findings(section, len, 0, 1u << DL_RULE_MISSING_TEXT, NULL, 0, NULL, 0, NULL, 0, &count, &fault) == DL_DONE
           && count > 0, "dl_findings without string sections");
    wanted(dl_findings(section, len, 0, UINT32_MAX << (DL_RULE_NO_CODE + 1), NULL, 0, NULL, 0, NULL, 0, &count, &fault)
           == DL_NO_ANSWER, "dl_findings of no rule");
    wanted(dl_copy(section, len, false, NULL, 0, &length, &fault) == DL_NO_ROOM && length > 0, "dl_copy");
}

int main(int words_count, char **words)
{
    if (words_count != 3)
        return 2;
    len = read_file(words[1], section, sizeof section);
    line_str_len = read_file(words[2], line_str, sizeof line_str);
    without_section();
    without_index();
    without_room();
    index_of_section();
    return 0;
}
