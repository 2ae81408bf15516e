/*
 * fuzz ROUNDS FILE..: the calls over sections of the files with changed bytes and random ends, and random addresses,
 * offsets, files and rooms, which may be null where they have no elements. Each section, and each struct and room that
 * is written, ends at a page that can't be touched; what a call may not write is compared afterwards.
 */
#include <boxantrel.h>
#include <stdio.h>
#include <stdlib.h>
#include <string.h>
#include <sys/mman.h>
#include <unistd.h>

enum { MOST = 1 << 16, MOST_ROWS = 256, MOST_COPY = 4096, MOST_TEXT = 128, MOST_ASKED = 8, FILL = 0xa5 };

static uint64_t state;

/* The next random number (splitmix64). */
static uint64_t next(void)
{
    uint64_t z = state += 0x9e3779b97f4a7c15;
    z = (z ^ z >> 30) * 0xbf58476d1ce4e5b9;
    z = (z ^ z >> 27) * 0x94d049bb133111eb;
    return z ^ z >> 31;
}

static uint64_t below(uint64_t n)
{
    return next() % n;
}

static void wanted(bool holds, const char *what)
{
    if (!holds) {
        fprintf(stderr, "fuzz: %s\n", what);
        abort();
    }
}

/* The end of `most` bytes, after which a page can't be touched. */
static uint8_t *guarded(size_t most)
{
    size_t page = (size_t)sysconf(_SC_PAGESIZE);
    size_t size = (most + page - 1) / page * page;
    uint8_t *at = mmap(NULL, size + page, PROT_READ | PROT_WRITE, MAP_PRIVATE | MAP_ANONYMOUS, -1, 0);
    wanted(at != MAP_FAILED, "no memory");
    wanted(mprotect(at + size, page, PROT_NONE) == 0, "no guard page");
    return at + size;
}

/* Whether all bytes are as they were filled. */
static bool is_filled(const void *at, size_t len)
{
    const uint8_t *bytes = at;
    for (size_t i = 0; i < len; i++)
        if (bytes[i] != FILL)
            return false;
    return true;
}

/* Where so many elements are: where there are none, now and then nowhere. */
static void *or_null(void *elements, size_t count)
{
    return count > 0 || below(2) ? elements : NULL;
}

static uint8_t *section_end, *section;
static dl_counts *counts;
static dl_fault *fault;
static dl_row *row, *rows_end;
static dl_place *places_end;
static dl_source *sources_end;
static size_t *paths_len;
static dl_finding *findings_end;
static uint64_t *unit;
static dl_unit *described;
static size_t *count;
static uint8_t *copy_end;
static uint8_t *text_end;
static uint64_t *addresses_end, *units_end;
static size_t *ends_end;
static size_t len;
static uint8_t how;

/* The same, where dl_check and dl_find_all stop at the first fault. */
static uint8_t up_to_fault(void)
{
    return (uint8_t)(how & ~DL_KEEP_GOING);
}

/* Fills what the calls write. */
static void fill(void)
{
    memset(counts, FILL, sizeof *counts);
    memset(fault, FILL, sizeof *fault);
    memset(row, FILL, sizeof *row);
    memset(unit, FILL, sizeof *unit);
    memset(described, FILL, sizeof *described);
    memset(count, FILL, sizeof *count);
    memset(paths_len, FILL, sizeof *paths_len);
    memset(rows_end - MOST_ROWS, FILL, MOST_ROWS * sizeof *rows_end);
}

/* The fault of a call with this status: told in its case alone. */
static void check_fault(uint32_t status)
{
    if (status != DL_FAULT) {
        wanted(is_filled(fault, sizeof *fault), "a fault that isn't told");
        return;
    }
    wanted(fault->offset <= len, "a fault beyond the section");
    wanted(fault->kind >= DL_RESERVED_LENGTH && fault->kind <= DL_TRUNCATED, "a fault of no kind");
    wanted(fault->kind == DL_STANDARD_LENGTH || fault->kind == DL_UNKNOWN_FORM || fault->detail == 0, "a detail of none");
}

/* Writes the text of a fault into a room: its kind, or where it is none of a fault nothing. */
static void check_text(dl_fault told, size_t room)
{
    *fault = told;
    memset(text_end - MOST_TEXT, FILL, MOST_TEXT);
    uint8_t *text = text_end - room;
    size_t length = dl_fault_text(fault, or_null(text, room), room);
    bool is_file = told.kind >= DL_NOT_ELF && told.kind <= DL_SECTION_TOO_LONG;
    bool is_kind = is_file || (told.kind >= DL_RESERVED_LENGTH && told.kind <= DL_TRUNCATED
        && (told.kind != DL_STANDARD_LENGTH || told.detail < 256));
    wanted(memcmp(fault, &told, sizeof told) == 0, "a fault that the text of it changes");
    wanted(length <= MOST_TEXT && (length > 0) == is_kind, "a text of no fault, or none of one");
    size_t written = length < room ? length : room;
    wanted(is_file || memcmp(text, "damage at 0x", written < 12 ? written : 12) == 0, "a text that begins otherwise");
    wanted(is_filled(text_end - MOST_TEXT, MOST_TEXT - room), "a text before its room");
    wanted(is_filled(text + written, room - written), "more than the text");
}

/* Counts the section. The answer is the status. */
static uint32_t check_counts(void)
{
    fill();
    uint32_t status = dl_check(section, len, up_to_fault(), counts, fault);
    check_fault(status);
    wanted(status == DL_DONE || status == DL_FAULT || status == DL_NO_MEMORY, "a status of no count");
    if (status == DL_DONE)
        wanted(counts->sequences <= counts->rows && counts->rows <= len && counts->damaged == 0,
               "counts beyond the section");
    else
        wanted(is_filled(counts, sizeof *counts), "counts that aren't told");
    return status;
}

/* Looks an address up, where counting ended with this status. */
static void check_find(uint32_t counted, uint64_t address)
{
    fill();
    uint32_t status = dl_find(section, len, how, address, 0, row, unit, fault);
    check_fault(status);
    wanted(status <= DL_NO_MEMORY, "a status of no look-up");
    if (status == DL_DONE)
        wanted(row->address <= address && !(row->flags & DL_END) && *unit < len, "a row above its address");
    else
        wanted(is_filled(row, sizeof *row) && is_filled(unit, sizeof *unit), "a row that isn't told");
    if (status != DL_DONE)
        wanted(status == (counted == DL_DONE ? (uint32_t)DL_NO_ANSWER : counted), "another end than that of the count");
}

/* Some addresses that are asked for. */
static void choose_addresses(size_t asked)
{
    for (size_t i = 0; i < asked; i++)
        (addresses_end - asked)[i] = below(2) ? 0x401000 + below(256) : next();
}

static bool is_same_row(const dl_row *row, const dl_row *other)
{
    return row->address == other->address && row->line == other->line && row->file == other->file
        && row->flags == other->flags;
}

/* Looks addresses up, where counting ended with this status: each as dl_find does, but where a fault comes first. */
static void check_find_all(uint32_t counted, size_t asked)
{
    choose_addresses(asked);
    fill();
    memset(units_end - MOST_ASKED, FILL, MOST_ASKED * sizeof *units_end);
    dl_row *rows = rows_end - asked;
    uint64_t *units = units_end - asked;
    const uint64_t *addresses = addresses_end - asked;
    uint32_t status = dl_find_all(section, len, up_to_fault(), or_null(addresses_end - asked, asked), asked,
                                  or_null(rows, asked), or_null(units, asked), fault);
    check_fault(status);
    wanted(status == counted, "another end than that of the count");
    wanted(is_filled(rows_end - MOST_ROWS, (MOST_ROWS - asked) * sizeof *rows), "a row before its room");
    wanted(is_filled(units_end - MOST_ASKED, (MOST_ASKED - asked) * sizeof *units), "an offset before its room");
    for (size_t i = 0; i < asked && status != DL_NO_MEMORY; i++) {
        dl_row found;
        uint64_t at;
        dl_fault other;
        uint32_t alone = dl_find(section, len, how, addresses[i], 0, &found, &at, &other);
        wanted((units[i] != UINT64_MAX) == (alone == DL_DONE), "an answer that isn't that of one look-up");
        if (alone == DL_DONE)
            wanted(units[i] == at && is_same_row(&rows[i], &found), "another answer");
        else
            wanted(is_filled(rows + i, sizeof *rows), "a row of no answer");
    }
}

/* The units of the section that aren't damaged, side by side. */
static uint8_t whole[MOST];
static size_t whole_len;
/* For the offset of such a unit in `whole`, that in the section. */
static uint64_t moved[MOST];

/* The number of this size at an offset; 0 where the section hasn't all bytes of it. */
static uint64_t number_at(uint64_t offset, uint64_t size)
{
    uint64_t number = 0;
    for (uint64_t i = 0; i < size && size <= len - offset; i++)
        number = number << 8 | section[offset + (how & DL_BIG ? i : size - 1 - i)];
    return number;
}

/* How many bytes the unit at an offset has by its initial length (section 7.4); 0 where that isn't good. */
static uint64_t length_at(uint64_t offset)
{
    uint64_t length = number_at(offset, 4);
    if (length != 0xffffffff)
        return length < 0xfffffff0 ? 4 + length : 0;
    length = len - offset < 12 ? 0 : number_at(offset + 4, 8);
    return length <= (uint64_t)1 << 40 ? 12 + length : 0;
}

/* Parts the section into the units that aren't damaged and others. The answer is how many of the latter there are. */
static uint64_t part_section(void)
{
    uint64_t damaged = 0;
    whole_len = 0;
    for (uint64_t offset = 0, length; offset < len; offset += length) {
        dl_unit read;
        dl_fault other;
        uint32_t status = dl_unit_at(section, len, how, offset, &read, &other);
        length = status == DL_DONE ? read.length : length_at(offset);
        if (status == DL_DONE) {
            memcpy(whole + whole_len, section + offset, length);
            moved[whole_len] = offset;
            whole_len += length;
        } else {
            damaged++;
            if (length == 0)
                break;
        }
    }
    return damaged;
}

/* Counts the section around damaged units, where counting ended with this status up to the first fault: the same status
   and fault, and the counts of a section of the units alone that aren't damaged. */
static void check_counts_around(uint32_t counted, uint64_t damaged)
{
    dl_counts alone, up_to;
    dl_fault other, first;
    fill();
    uint32_t status = dl_check(section, len, how | DL_KEEP_GOING, counts, fault);
    check_fault(status);
    wanted(status == counted, "another status around damaged units");
    wanted(dl_check(section, len, up_to_fault(), &up_to, &first) == counted, "another status the second time");
    if (status == DL_NO_MEMORY) {
        wanted(is_filled(counts, sizeof *counts), "counts that aren't told");
        return;
    }
    if (status == DL_FAULT)
        wanted(fault->offset == first.offset && fault->kind == first.kind && fault->detail == first.detail,
               "another fault than the first");
    wanted((status == DL_FAULT) == (damaged > 0) && counts->damaged == damaged, "another number of damaged units");
    wanted(dl_check(whole, whole_len, up_to_fault(), &alone, &other) == DL_DONE, "whole units that are at fault");
    wanted(counts->units == alone.units && counts->skipped == alone.skipped && counts->sequences == alone.sequences
           && counts->rows == alone.rows, "counts that aren't those of the whole units");
}

/* Looks addresses up around damaged units: each as in a section of the units alone that aren't damaged. */
static void check_find_all_around(uint32_t counted, size_t asked)
{
    choose_addresses(asked);
    fill();
    memset(units_end - MOST_ASKED, FILL, MOST_ASKED * sizeof *units_end);
    dl_row *rows = rows_end - asked, alone_rows[MOST_ASKED];
    uint64_t *units = units_end - asked, alone_units[MOST_ASKED];
    uint64_t *addresses = addresses_end - asked;
    dl_fault other;
    uint32_t status = dl_find_all(section, len, how | DL_KEEP_GOING, or_null(addresses, asked), asked,
                                  or_null(rows, asked), or_null(units, asked), fault);
    check_fault(status);
    wanted(status == counted, "another end around damaged units");
    wanted(is_filled(rows_end - MOST_ROWS, (MOST_ROWS - asked) * sizeof *rows), "a row before its room");
    wanted(is_filled(units_end - MOST_ASKED, (MOST_ASKED - asked) * sizeof *units), "an offset before its room");
    if (status == DL_NO_MEMORY)
        return;
    wanted(dl_find_all(whole, whole_len, up_to_fault(), addresses, asked, alone_rows, alone_units, &other) == DL_DONE,
           "whole units that are at fault");
    for (size_t i = 0; i < asked; i++) {
        bool answers = alone_units[i] != UINT64_MAX;
        wanted(units[i] == (answers ? moved[alone_units[i]] : UINT64_MAX), "another unit around damaged ones");
        wanted(answers ? is_same_row(&rows[i], &alone_rows[i]) : is_filled(rows + i, sizeof *rows),
               "another row around damaged units");
    }
}

/* Describes the unit at an offset. The answer is the status. */
static uint32_t check_unit(uint64_t offset)
{
    fill();
    uint32_t status = dl_unit_at(section, len, how, offset, described, fault);
    check_fault(status);
    wanted(status <= DL_NO_MEMORY, "a status of no unit");
    wanted((status == DL_NO_ANSWER) == (offset >= len), "a unit where there is no byte, or none where there is one");
    if (status == DL_DONE)
        wanted(described->offset == offset && described->length <= len - offset && described->rows <= described->length,
               "a unit beyond the section");
    else
        wanted(is_filled(described, sizeof *described), "a unit that isn't told");
    if (status == DL_FAULT)
        wanted(fault->offset >= offset, "a fault before the unit");
    return status;
}

/* Lists the rows of the unit at an offset, whose status is this one, into a room. */
static void check_rows(uint32_t described_as, uint64_t offset, size_t room)
{
    uint64_t wanted_rows = described->rows;
    fill();
    dl_row *rows = rows_end - room;
    uint32_t status = dl_rows_at(section, len, how, offset, or_null(rows, room), room, count, fault);
    check_fault(status);
    wanted(status == described_as, "rows with another end than that of the unit");
    size_t kept = 0;
    if (status == DL_DONE || status == DL_FAULT) {
        wanted(status == DL_FAULT || *count == wanted_rows, "another number of rows than that of the unit");
        kept = *count < room ? *count : room;
    } else {
        wanted(is_filled(count, sizeof *count), "a count that isn't told");
    }
    wanted(is_filled(rows_end - MOST_ROWS, (MOST_ROWS - room) * sizeof *rows), "a row before the room");
    wanted(is_filled(rows + kept, (room - kept) * sizeof *rows), "a row that isn't told");
}

/* Two string sections. */
struct strings {
    const uint8_t *line_str, *str;
    size_t line_str_len, str_len;
};

/* The end and the front of the section, as string sections. */
static struct strings random_strings(void)
{
    struct strings strings = {.line_str_len = below(len + 1), .str_len = below(4) ? below(len + 1) : 0};
    strings.line_str = or_null(section_end - strings.line_str_len, strings.line_str_len);
    strings.str = or_null(section, strings.str_len);
    return strings;
}

/* A number of a file, which the unit may have. */
static uint64_t random_file(void)
{
    return below(2) ? below(4) : next();
}

static uint32_t path_at(const struct strings *strings, uint64_t offset, uint64_t file, uint8_t *path, size_t room,
                        size_t *length, dl_fault *told)
{
    return dl_path_at(section, len, how, offset, file, strings->line_str, strings->line_str_len, strings->str,
                      strings->str_len, path, room, length, told);
}

/* Tells the path of a file of the unit at an offset, whose status is this one, into a room. */
static void check_path(uint32_t described_as, uint64_t offset, size_t room)
{
    bool is_foreign = described_as == DL_DONE && described->address_size == 0;
    fill();
    memset(copy_end - MOST_COPY, FILL, MOST_COPY);
    uint8_t *path = copy_end - room;
    struct strings strings = random_strings();
    uint32_t status = path_at(&strings, offset, random_file(), or_null(path, room), room, count, fault);
    check_fault(status);
    wanted(status == (is_foreign ? (uint32_t)DL_OTHER_VERSION : described_as),
           "a path with another end than that of the unit");
    size_t written = 0;
    if (status == DL_DONE)
        written = *count < room ? *count : room;
    else
        wanted(is_filled(count, sizeof *count), "a length that isn't told");
    wanted(is_filled(copy_end - MOST_COPY, MOST_COPY - room), "a path before its room");
    wanted(is_filled(path + written, room - written), "more than the path");
}

/* The path of a file as dl_path_at tells it is the one that begins and ends here, of which so much is written. */
static void check_same(const struct strings *strings, uint64_t offset, uint64_t file, const uint8_t *path,
                       size_t length, size_t written)
{
    static uint8_t alone[3 * MOST];
    size_t alone_length;
    dl_fault other;
    uint32_t status = path_at(strings, offset, file, alone, sizeof alone, &alone_length, &other);
    wanted(status == DL_DONE && alone_length == length, "a path of another length than that of one file");
    wanted(memcmp(alone, path, written) == 0, "another path than that of one file");
}

/* Places that were told for a line are in order, of one line, and of none below the one that is asked for. */
static void check_places(const dl_place *places, size_t told, uint64_t line, bool exact)
{
    for (size_t i = 0; i < told; i++) {
        wanted(exact ? places[i].line == line : places[i].line >= line, "a place of another line");
        wanted(places[i].line == places[0].line && places[i].prologue_end <= 1, "places of two lines");
        wanted(i == 0 || places[i - 1].address <= places[i].address, "places out of order");
    }
}

/* Finds the places of a line of a file of the first unit, where counting ended with this status, into a room. */
static void check_lines(uint32_t counted, size_t room)
{
    static uint8_t path[3 * MOST];
    struct strings strings = random_strings();
    size_t length = 0;
    dl_fault other;
    if (path_at(&strings, 0, below(3), path, sizeof path, &length, &other) != DL_DONE)
        length = 0;
    bool exact = below(2) == 0;
    uint64_t line = below(4) ? below(32) : next();
    uint8_t asked = below(2) ? how | DL_KEEP_GOING : up_to_fault();
    fill();
    memset(places_end - MOST_ROWS, FILL, MOST_ROWS * sizeof *places_end);
    dl_place *places = places_end - room;
    uint32_t status = dl_lines(section, len, asked, strings.line_str, strings.line_str_len, strings.str, strings.str_len,
                               or_null(path, length), length, line, exact, or_null(places, room), room, count, fault);
    check_fault(status);
    wanted(status == counted || (counted == DL_DONE && status == DL_NO_ANSWER), "places with another end than the count");
    size_t told = 0;
    if (status == DL_DONE || status == DL_FAULT)
        told = *count < room ? *count : room;
    else
        wanted(is_filled(count, sizeof *count), "a number of places that isn't told");
    wanted(status != DL_DONE || *count > 0, "no place of a line that has one");
    check_places(places, told, line, exact);
    wanted(is_filled(places_end - MOST_ROWS, (MOST_ROWS - room) * sizeof *places), "a place before its room");
    wanted(is_filled(places + told, (room - told) * sizeof *places), "more than the places");
}

/* Source files that were told stand by their paths, which follow one another, and those of one path by their sums. */
static void check_files(const dl_source *sources, size_t told, const uint8_t *paths, size_t written)
{
    for (size_t i = 0; i < told; i++) {
        const dl_source *one = &sources[i], *other = &sources[i > 0 ? i - 1 : 0];
        static const uint8_t none[sizeof one->md5];
        size_t end = other->path_begin + other->path_len;
        wanted(one->has_md5 <= 1 && (one->has_md5 || memcmp(one->md5, none, sizeof none) == 0), "a sum of none");
        wanted(one->rows > 0 || one->bytes == 0, "bytes of no row");
        if (i > 0 && one->path_begin == other->path_begin && one->path_len == other->path_len) {
            wanted(one->has_md5 && other->has_md5 && memcmp(other->md5, one->md5, sizeof one->md5) < 0, "sums out of order");
            wanted(one->rows == other->rows && one->bytes == other->bytes, "two counts of one path");
            continue;
        }
        wanted(one->path_begin == (i > 0 ? end : 0), "a path that doesn't begin where the one before it ends");
        if (i > 0 && one->path_begin + one->path_len <= written) {
            size_t least = one->path_len < other->path_len ? one->path_len : other->path_len;
            int order = memcmp(paths + other->path_begin, paths + one->path_begin, least);
            wanted(order < 0 || (order == 0 && other->path_len < one->path_len), "paths out of order");
        }
    }
}

/* Finds the source files, where counting ended with this status, into rooms for them and for their paths. */
static void check_sources(uint32_t counted, size_t room, size_t paths_room)
{
    struct strings strings = random_strings();
    uint8_t asked = below(2) ? how | DL_KEEP_GOING : up_to_fault();
    fill();
    memset(sources_end - MOST_ROWS, FILL, MOST_ROWS * sizeof *sources_end);
    memset(copy_end - MOST_COPY, FILL, MOST_COPY);
    dl_source *sources = sources_end - room;
    uint8_t *paths = copy_end - paths_room;
    uint32_t status = dl_sources(section, len, asked, strings.line_str, strings.line_str_len, strings.str, strings.str_len,
                                 or_null(sources, room), room, count, or_null(paths, paths_room), paths_room, paths_len, fault);
    check_fault(status);
    wanted(status == counted, "source files with another end than the count");
    size_t told = 0, written = 0;
    if (status == DL_DONE || status == DL_FAULT) {
        told = *count < room ? *count : room;
        written = *paths_len < paths_room ? *paths_len : paths_room;
    } else {
        wanted(is_filled(count, sizeof *count) && is_filled(paths_len, sizeof *paths_len), "numbers that aren't told");
    }
    check_files(sources, told, paths, written);
    wanted(is_filled(sources_end - MOST_ROWS, (MOST_ROWS - room) * sizeof *sources), "a source file before its room");
    wanted(is_filled(sources + told, (room - told) * sizeof *sources), "more than the source files");
    wanted(is_filled(copy_end - MOST_COPY, MOST_COPY - paths_room), "paths before their room");
    wanted(is_filled(paths + written, paths_room - written), "more than the paths");
}

/* Finds what misleads a debugger by some rules, where counting ended with this status, into a room for the findings. */
static void check_findings(uint32_t counted, size_t room)
{
    struct strings strings = random_strings();
    uint32_t rules = below(2) ? UINT32_MAX : (uint32_t)below(UINT32_MAX);
    uint8_t asked = below(2) ? how | DL_KEEP_GOING : up_to_fault();
    fill();
    memset(findings_end - MOST_ROWS, FILL, MOST_ROWS * sizeof *findings_end);
    dl_finding *findings = findings_end - room;
    uint32_t status = dl_findings(section, len, asked, rules, strings.line_str, strings.line_str_len, strings.str, strings.str_len,
                                  or_null(findings, room), room, count, fault);
    check_fault(status);
    wanted(status == counted || (status == DL_NO_ANSWER && counted == DL_DONE), "findings with another end than the count");
    size_t told = 0;
    if (status == DL_DONE || status == DL_FAULT)
        told = *count < room ? *count : room;
    else
        wanted(is_filled(count, sizeof *count), "a count that isn't told");
    wanted(status != DL_DONE || *count > 0, "no finding");
    for (size_t i = 0; i < told; i++) {
        const dl_finding *one = &findings[i];
        wanted(one->rule <= DL_RULE_NO_CODE && (rules >> one->rule & 1), "a rule that isn't asked for");
        wanted(one->rule != DL_RULE_NO_CODE && one->rule != DL_RULE_DEAD_SEQUENCE, "a finding that only a file has");
        wanted(one->offset <= len, "a finding outside the section");
        wanted(one->row > 0 || (one->address == 0 && one->op_index == 0), "a place of no row");
    }
    wanted(is_filled(findings_end - MOST_ROWS, (MOST_ROWS - room) * sizeof *findings), "a finding before its room");
    wanted(is_filled(findings + told, (room - told) * sizeof *findings), "more than the findings");
}

/* Tells the paths of files of the unit at an offset, whose status is this one, into a room. */
static void check_paths(uint32_t described_as, uint64_t offset, size_t asked, size_t room)
{
    bool is_foreign = described_as == DL_DONE && described->address_size == 0;
    fill();
    memset(copy_end - MOST_COPY, FILL, MOST_COPY);
    memset(ends_end - MOST_ASKED, FILL, MOST_ASKED * sizeof *ends_end);
    uint8_t *paths = copy_end - room;
    uint64_t *files = addresses_end - asked;
    size_t *ends = ends_end - asked, written = 0, from = 0;
    for (size_t i = 0; i < asked; i++)
        files[i] = random_file();
    struct strings strings = random_strings();
    uint32_t status = dl_paths_at(section, len, how, offset, or_null(files, asked), asked, strings.line_str,
                                  strings.line_str_len, strings.str, strings.str_len, or_null(paths, room), room,
                                  or_null(ends, asked), fault);
    check_fault(status);
    if (status == DL_DONE || status == DL_NO_ROOM) {
        wanted(described_as == DL_DONE && !is_foreign, "paths with another end than that of the unit");
        size_t all = asked > 0 ? ends[asked - 1] : 0;
        wanted((status == DL_NO_ROOM) == (room < all), "no room where there is some, or some where there is none");
        written = all < room ? all : room;
        for (size_t i = 0; i < asked; from = ends[i++]) {
            size_t here = from < room ? room - from : 0;
            wanted(from <= ends[i], "ends that fall");
            check_same(&strings, offset, files[i], paths + (from < room ? from : room), ends[i] - from,
                       ends[i] - from < here ? ends[i] - from : here);
        }
    } else {
        wanted(status == (is_foreign ? (uint32_t)DL_OTHER_VERSION : described_as),
               "paths with another end than that of the unit");
        wanted(is_filled(ends, asked * sizeof *ends), "ends that aren't told");
    }
    wanted(is_filled(ends_end - MOST_ASKED, (MOST_ASKED - asked) * sizeof *ends), "an end before the room for them");
    wanted(is_filled(copy_end - MOST_COPY, MOST_COPY - room), "a path before its room");
    wanted(is_filled(paths + written, room - written), "more than the paths");
}

/* Writes the section anew into a room, where counting ended with this status. */
static void check_copy(uint32_t counted, size_t room)
{
    fill();
    memset(copy_end - MOST_COPY, FILL, MOST_COPY);
    uint8_t *out = copy_end - room;
    uint32_t status = dl_copy(section, len, how, or_null(out, room), room, count, fault);
    check_fault(status);
    wanted(status <= DL_NO_ROOM && status != DL_NO_ANSWER, "a status of no copy");
    size_t written = 0;
    if (status == DL_DONE)
        written = *count;
    wanted(written <= room, "a copy beyond the room");
    wanted(status != DL_NO_ROOM || *count > room, "no room where there is some");
    if (status == DL_DONE || status == DL_NO_ROOM)
        wanted(counted == DL_DONE || counted == DL_NO_MEMORY, "a copy of a section at fault");
    else
        wanted(is_filled(count, sizeof *count), "a length that isn't told");
    wanted(is_filled(copy_end - MOST_COPY, MOST_COPY - room), "a byte before the room");
    wanted(is_filled(out + written, room - written), "a byte after the copy");
}

/* Reads a file, of which some bytes are changed and some left out at its end. */
static void take(const char *path)
{
    static uint8_t bytes[MOST];
    FILE *file = fopen(path, "rb");
    wanted(file != NULL, path);
    size_t held = fread(bytes, 1, MOST, file);
    fclose(file);
    len = below(4) == 0 ? below(held + 1) : held;
    for (uint64_t changes = below(6); len > 0 && changes > 0; changes--)
        bytes[below(len)] = (uint8_t)(below(2) ? next() : below(20));
    memcpy(section_end - len, bytes, len);
    section = or_null(section_end - len, len);
    how = (uint8_t)((below(8) == 0 ? DL_BIG : 0) | (below(2) == 0 ? DL_OLDER_8 : 0));
    if (below(16) == 0)
        how = (uint8_t)next();
}

int main(int words_count, char **words)
{
    if (words_count < 3)
        return 2;
    section_end = guarded(MOST);
    counts = (dl_counts *)guarded(sizeof *counts) - 1;
    fault = (dl_fault *)guarded(sizeof *fault) - 1;
    row = (dl_row *)guarded(sizeof *row) - 1;
    unit = (uint64_t *)guarded(sizeof *unit) - 1;
    described = (dl_unit *)guarded(sizeof *described) - 1;
    count = (size_t *)guarded(sizeof *count) - 1;
    copy_end = guarded(MOST_COPY);
    text_end = guarded(MOST_TEXT);
    addresses_end = (uint64_t *)guarded(MOST_ASKED * sizeof *addresses_end);
    units_end = (uint64_t *)guarded(MOST_ASKED * sizeof *units_end);
    ends_end = (size_t *)guarded(MOST_ASKED * sizeof *ends_end);
    rows_end = (dl_row *)guarded(MOST_ROWS * sizeof *rows_end);
    places_end = (dl_place *)guarded(MOST_ROWS * sizeof *places_end);
    sources_end = (dl_source *)guarded(MOST_ROWS * sizeof *sources_end);
    paths_len = (size_t *)guarded(sizeof *paths_len) - 1;
    findings_end = (dl_finding *)guarded(MOST_ROWS * sizeof *findings_end);
    uint64_t rounds = strtoull(words[1], NULL, 10);
    for (state = 1; state <= rounds; state++) {
        uint64_t round = state;
        take(words[2 + below((uint64_t)words_count - 2)]);
        uint32_t counted = check_counts();
        check_find(counted, below(2) ? 0x401000 + below(256) : next());
        check_find_all(counted, below(MOST_ASKED + 1));
        check_counts_around(counted, part_section());
        check_find_all_around(counted, below(MOST_ASKED + 1));
        check_lines(counted, below(below(2) ? 4 : MOST_ROWS + 1));
        check_sources(counted, below(below(2) ? 4 : MOST_ROWS + 1), below(below(2) ? 64 : MOST_COPY + 1));
        check_findings(counted, below(below(2) ? 4 : MOST_ROWS + 1));
        check_copy(counted, below(below(2) ? 64 : MOST_COPY + 1));
        dl_fault told;
        memset(&told, 0, sizeof told);
        told.offset = next() >> below(64);
        told.detail = next() >> below(64);
        told.kind = (uint32_t)below(20);
        check_text(told, below(MOST_TEXT + 1));
        uint64_t offset = below(2) ? 0 : below(len + 2);
        uint32_t described_as = check_unit(offset);
        check_path(described_as, offset, below(64));
        check_paths(check_unit(offset), offset, below(MOST_ASKED + 1), below(2) ? below(32) : below(MOST_COPY + 1));
        check_rows(check_unit(offset), offset, below(2) ? below(MOST_ROWS) : below(4));
        state = round;
    }
    printf("fuzz: %llu rounds\n", (unsigned long long)rounds);
    return 0;
}
