/*
 * The calls of include/boxantrel.h, over the functions of the library. These have a length for each pointer to bytes or
 * elements, and take none that is null: where there is nothing, the address of `nowhere` is handed in.
 */
#include <boxantrel.h>
#include <stddef.h>
#include <stdlib.h>

uint32_t boxantrel_check(const uint8_t *section, size_t len, uint8_t how, dl_counts *counts, dl_fault *fault);
uint32_t boxantrel_unit_at(const uint8_t *section, size_t len, uint8_t how, uint64_t offset, dl_unit *unit,
                           dl_fault *fault);
uint32_t boxantrel_rows_at(const uint8_t *section, size_t len, uint8_t how, uint64_t offset, dl_row *rows, size_t room,
                           size_t *count, dl_fault *fault);
uint32_t boxantrel_path_at(const uint8_t *section, size_t len, uint8_t how, uint64_t offset, uint64_t file,
                           const uint8_t *line_str, size_t line_str_len, const uint8_t *str, size_t str_len,
                           uint8_t *path, size_t room, size_t *length, dl_fault *fault);
uint32_t boxantrel_paths_at(const uint8_t *section, size_t len, uint8_t how, uint64_t offset, const uint64_t *files,
                            size_t files_count, const uint8_t *line_str, size_t line_str_len, const uint8_t *str,
                            size_t str_len, uint8_t *paths, size_t room, size_t *ends, size_t ends_count,
                            dl_fault *fault);
uint32_t boxantrel_find(const uint8_t *section, size_t len, uint8_t how, uint64_t address, uint8_t op_index, dl_row *row,
                        uint64_t *unit, dl_fault *fault);
uint32_t boxantrel_find_all(const uint8_t *section, size_t len, uint8_t how, const uint64_t *addresses,
                            size_t addresses_count, dl_row *rows, size_t rows_count, uint64_t *units,
                            size_t units_count, dl_fault *fault);
uint32_t boxantrel_lines(const uint8_t *section, size_t len, uint8_t how, const uint8_t *line_str, size_t line_str_len,
                         const uint8_t *str, size_t str_len, const uint8_t *path, size_t path_len, uint64_t line, bool exact,
                         dl_place *places, size_t room, size_t *count, dl_fault *fault);
uint32_t boxantrel_sources(const uint8_t *section, size_t len, uint8_t how, const uint8_t *line_str, size_t line_str_len,
                           const uint8_t *str, size_t str_len, dl_source *sources, size_t room, size_t *count, uint8_t *paths,
                           size_t paths_room, size_t *paths_len, dl_fault *fault);
uint32_t boxantrel_findings(const uint8_t *section, size_t len, uint8_t how, uint32_t rules, const uint8_t *line_str,
                            size_t line_str_len, const uint8_t *str, size_t str_len, dl_finding *findings, size_t room,
                            size_t *count, dl_fault *fault);
uint32_t boxantrel_copy(const uint8_t *section, size_t len, uint8_t how, uint8_t *out, size_t room, size_t *copied,
                        dl_fault *fault);
size_t boxantrel_fault_text(const dl_fault *fault, uint8_t *text, size_t room);

/* An index, in numbers. */
struct index_record {
    uint64_t stretches;
    uint64_t build_id_len;
    uint8_t is_all;
    dl_index_layout layout;
};

/* The numbers of an index with no stretches. A record has them before it is written, since each layout that is handed in is
   one of an index. */
static const struct index_record no_stretches = {
    .layout = {.len = 128, .places = {128, 128, 128, 128, 128, 128, 128, 128}, .widths = {1, 1, 1, 1, 1}}};

/* What an index tells of an address, with the places of the texts in its bytes. */
struct location_record {
    uint64_t unit;
    uint64_t line;
    uint64_t column;
    uint64_t discriminator;
    struct {
        size_t place;
        size_t len;
    } texts[3];
    uint8_t is_stmt;
    uint8_t has_path;
    uint8_t is_found;
};

uint32_t boxantrel_index_open(const uint8_t *bytes, size_t len, struct index_record *index, dl_index_fault *fault);
uint32_t boxantrel_index_open_unchecked(const uint8_t *bytes, size_t len, struct index_record *index,
                                        dl_index_fault *fault);
uint32_t boxantrel_index_find(const uint8_t *bytes, size_t len, const dl_index_layout *layout, uint64_t address,
                              struct location_record *location);
uint32_t boxantrel_index_find_many(const uint8_t *bytes, size_t len, const dl_index_layout *layout,
                                   const uint64_t *addresses, size_t addresses_count, struct location_record *locations,
                                   size_t locations_count);
uint32_t boxantrel_index_stretch(const uint8_t *bytes, size_t len, const dl_index_layout *layout, size_t number,
                                 uint64_t *start, uint64_t *last, struct location_record *location);
size_t boxantrel_index_path(const uint8_t *bytes, size_t len, const struct location_record *location, uint8_t *path,
                            size_t room);
size_t boxantrel_index_fault_text(const dl_index_fault *fault, uint8_t *text, size_t room);
uint32_t boxantrel_index_build(const uint8_t *file, size_t len, bool all, bool keep_going, uint8_t *room,
                               size_t room_len, size_t *made, dl_fault *fault);
uint32_t boxantrel_index_build_section(const uint8_t *section, size_t len, uint8_t how, bool all,
                                       const uint8_t *line_str, size_t line_str_len, const uint8_t *str, size_t str_len,
                                       const dl_range *code, size_t code_count, uint8_t *room, size_t room_len,
                                       size_t *made, dl_fault *fault);
size_t boxantrel_file_fault_text(uint32_t kind, uint8_t *text, size_t room);

/* Where a pointer of no elements points. Nobody reads or writes it. It is aligned for each type of an element. */
static uint64_t nowhere;

/* Where so many elements stand that are read. */
static const void *from(const void *elements, size_t count)
{
    return count != 0 ? elements : &nowhere;
}

/* Where a room for so many elements is. */
static void *into(void *room, size_t count)
{
    return count != 0 ? room : &nowhere;
}

uint32_t dl_check(const uint8_t *section, size_t len, uint8_t how, dl_counts *counts, dl_fault *fault)
{
    return boxantrel_check(from(section, len), len, how, counts, fault);
}

uint32_t dl_unit_at(const uint8_t *section, size_t len, uint8_t how, uint64_t offset, dl_unit *unit, dl_fault *fault)
{
    return boxantrel_unit_at(from(section, len), len, how, offset, unit, fault);
}

uint32_t dl_rows_at(const uint8_t *section, size_t len, uint8_t how, uint64_t offset, dl_row *rows, size_t room,
                    size_t *count, dl_fault *fault)
{
    return boxantrel_rows_at(from(section, len), len, how, offset, into(rows, room), room, count, fault);
}

uint32_t dl_path_at(const uint8_t *section, size_t len, uint8_t how, uint64_t offset, uint64_t file,
                    const uint8_t *line_str, size_t line_str_len, const uint8_t *str, size_t str_len, uint8_t *path,
                    size_t room, size_t *length, dl_fault *fault)
{
    return boxantrel_path_at(from(section, len), len, how, offset, file, from(line_str, line_str_len), line_str_len,
                             from(str, str_len), str_len, into(path, room), room, length, fault);
}

/* One number of files and ends. */
uint32_t dl_paths_at(const uint8_t *section, size_t len, uint8_t how, uint64_t offset, const uint64_t *files, size_t count,
                     const uint8_t *line_str, size_t line_str_len, const uint8_t *str, size_t str_len, uint8_t *paths,
                     size_t room, size_t *ends, dl_fault *fault)
{
    return boxantrel_paths_at(from(section, len), len, how, offset, from(files, count), count,
                              from(line_str, line_str_len), line_str_len, from(str, str_len), str_len,
                              into(paths, room), room, into(ends, count), count, fault);
}

uint32_t dl_find(const uint8_t *section, size_t len, uint8_t how, uint64_t address, uint8_t op_index, dl_row *row,
                 uint64_t *unit, dl_fault *fault)
{
    return boxantrel_find(from(section, len), len, how, address, op_index, row, unit, fault);
}

/* One number of addresses, rows and offsets. */
uint32_t dl_find_all(const uint8_t *section, size_t len, uint8_t how, const uint64_t *addresses, size_t count,
                     dl_row *rows, uint64_t *units, dl_fault *fault)
{
    return boxantrel_find_all(from(section, len), len, how, from(addresses, count), count, into(rows, count), count,
                              into(units, count), count, fault);
}

uint32_t dl_lines(const uint8_t *section, size_t len, uint8_t how, const uint8_t *line_str, size_t line_str_len,
                  const uint8_t *str, size_t str_len, const uint8_t *path, size_t path_len, uint64_t line, bool exact,
                  dl_place *places, size_t room, size_t *count, dl_fault *fault)
{
    return boxantrel_lines(from(section, len), len, how, from(line_str, line_str_len), line_str_len, from(str, str_len),
                           str_len, from(path, path_len), path_len, line, exact, into(places, room), room, count, fault);
}

uint32_t dl_sources(const uint8_t *section, size_t len, uint8_t how, const uint8_t *line_str, size_t line_str_len,
                    const uint8_t *str, size_t str_len, dl_source *sources, size_t room, size_t *count, uint8_t *paths,
                    size_t paths_room, size_t *paths_len, dl_fault *fault)
{
    return boxantrel_sources(from(section, len), len, how, from(line_str, line_str_len), line_str_len, from(str, str_len),
                             str_len, into(sources, room), room, count, into(paths, paths_room), paths_room, paths_len, fault);
}

uint32_t dl_findings(const uint8_t *section, size_t len, uint8_t how, uint32_t rules, const uint8_t *line_str, size_t line_str_len,
                     const uint8_t *str, size_t str_len, dl_finding *findings, size_t room, size_t *count, dl_fault *fault)
{
    return boxantrel_findings(from(section, len), len, how, rules, from(line_str, line_str_len), line_str_len,
                              from(str, str_len), str_len, into(findings, room), room, count, fault);
}

uint32_t dl_copy(const uint8_t *section, size_t len, uint8_t how, uint8_t *out, size_t room, size_t *copied,
                 dl_fault *fault)
{
    return boxantrel_copy(from(section, len), len, how, into(out, room), room, copied, fault);
}

size_t dl_fault_text(const dl_fault *fault, uint8_t *text, size_t room)
{
    if (fault->kind >= DL_NOT_ELF)
        return boxantrel_file_fault_text(fault->kind, into(text, room), room);
    return boxantrel_fault_text(fault, into(text, room), room);
}

/* Where the build ID of an index stands. */
#define BUILD_ID_PLACE 84

/* How many addresses are looked up at once. */
#define AT_ONCE 64

/* Tells of an index that was opened. */
static void tell_index(const uint8_t *bytes, size_t len, const struct index_record *record, dl_index *index)
{
    index->bytes = bytes;
    index->len = len;
    index->stretches = record->stretches;
    index->build_id = bytes + BUILD_ID_PLACE;
    index->build_id_len = record->build_id_len;
    index->all = record->is_all != 0;
    index->layout = record->layout;
}

uint32_t dl_index_open(const uint8_t *bytes, size_t len, dl_index *index, dl_index_fault *fault)
{
    struct index_record record = no_stretches;
    uint32_t status = boxantrel_index_open(from(bytes, len), len, &record, fault);
    if (status == DL_DONE)
        tell_index(bytes, len, &record, index);
    return status;
}

uint32_t dl_index_open_unchecked(const uint8_t *bytes, size_t len, dl_index *index, dl_index_fault *fault)
{
    struct index_record record = no_stretches;
    uint32_t status = boxantrel_index_open_unchecked(from(bytes, len), len, &record, fault);
    if (status == DL_DONE)
        tell_index(bytes, len, &record, index);
    return status;
}

/* A location has its numbers where a record has them, and pointers to the texts where that has their places. */
_Static_assert(sizeof(dl_location) == sizeof(struct location_record) && sizeof(bool) == sizeof(uint8_t)
                   && sizeof(const uint8_t *) == sizeof(size_t)
                   && offsetof(dl_location, texts) == offsetof(struct location_record, texts)
                   && offsetof(dl_location, is_stmt) == offsetof(struct location_record, is_stmt)
                   && offsetof(dl_location, is_found) == offsetof(struct location_record, is_found),
               "a location is laid out as a record");

/* Where a record is written that becomes a location: at its place, so that it isn't copied. */
static struct location_record *record_at(dl_location *location)
{
    return (struct location_record *)location;
}

/* Puts pointers to the texts, which lie in the bytes of the index, where a record that was written has their places. */
static void point(const dl_index *index, dl_location *location)
{
    for (int i = 0; i < 3; i++)
        location->texts[i].bytes = index->bytes + (size_t)location->texts[i].bytes;
}

uint32_t dl_index_find(const dl_index *index, uint64_t address, dl_location *location)
{
    uint32_t status =
        boxantrel_index_find(from(index->bytes, index->len), index->len, &index->layout, address, record_at(location));
    if (status == DL_DONE)
        point(index, location);
    return status;
}

/* One number of addresses and locations, as many at once as there is room for. */
uint32_t dl_index_find_many(const dl_index *index, const uint64_t *addresses, size_t count, dl_location *locations)
{
    uint32_t status = DL_DONE;
    for (size_t done = 0; done < count && status == DL_DONE; done += AT_ONCE) {
        size_t some = count - done < AT_ONCE ? count - done : AT_ONCE;
        status = boxantrel_index_find_many(from(index->bytes, index->len), index->len, &index->layout,
                                           addresses + done, some, record_at(locations + done), some);
        for (size_t i = 0; i < some && status == DL_DONE; i++)
            point(index, &locations[done + i]);
    }
    return status;
}

size_t dl_index_path(const dl_index *index, const dl_location *location, uint8_t *path, size_t room)
{
    struct location_record record = {.has_path = location->has_path};
    for (int i = 0; i < 3; i++) {
        record.texts[i].len = location->texts[i].len;
        record.texts[i].place = location->texts[i].len != 0 ? (size_t)(location->texts[i].bytes - index->bytes) : 0;
    }
    return boxantrel_index_path(from(index->bytes, index->len), index->len, &record, into(path, room), room);
}

uint32_t dl_index_stretch(const dl_index *index, size_t number, uint64_t *start, uint64_t *last, dl_location *location)
{
    uint32_t status = boxantrel_index_stretch(from(index->bytes, index->len), index->len, &index->layout, number, start,
                                              last, record_at(location));
    if (status == DL_DONE)
        point(index, location);
    return status;
}

size_t dl_index_fault_text(const dl_index_fault *fault, uint8_t *text, size_t room)
{
    return boxantrel_index_fault_text(fault, into(text, room), room);
}

uint32_t dl_index_build_into(const uint8_t *file, size_t len, uint8_t how, uint8_t *out, size_t room, size_t *made,
                             dl_fault *fault)
{
    *made = 0;
    return boxantrel_index_build(from(file, len), len, (how & DL_ALL) != 0, (how & DL_KEEP_GOING) != 0, into(out, room),
                                 room, made, fault);
}

uint32_t dl_index_build_section_into(const uint8_t *section, size_t len, uint8_t how, const uint8_t *line_str,
                                     size_t line_str_len, const uint8_t *str, size_t str_len, const dl_range *code,
                                     size_t code_count, uint8_t *out, size_t room, size_t *made, dl_fault *fault)
{
    *made = 0;
    return boxantrel_index_build_section(from(section, len), len, how & ~DL_ALL, (how & DL_ALL) != 0,
                                         from(line_str, line_str_len), line_str_len, from(str, str_len), str_len,
                                         from(code, code_count), code_count, into(out, room), room, made, fault);
}

/* What an index is made of: an ELF file, or a section with its strings and ranges. */
struct source {
    bool is_file;
    const uint8_t *bytes;
    size_t len;
    uint8_t how;
    const uint8_t *line_str;
    size_t line_str_len;
    const uint8_t *str;
    size_t str_len;
    const dl_range *code;
    size_t code_count;
};

static uint32_t build_into(const struct source *source, uint8_t *out, size_t room, size_t *made, dl_fault *fault)
{
    if (source->is_file)
        return dl_index_build_into(source->bytes, source->len, source->how, out, room, made, fault);
    return dl_index_build_section_into(source->bytes, source->len, source->how, source->line_str, source->line_str_len,
                                       source->str, source->str_len, source->code, source->code_count, out, room, made,
                                       fault);
}

/* Room that an index needs besides as many bytes as its source has, where that is small. */
#define FIRST_ROOM 4096

/* Takes room for as many bytes as the source has, which is nearly always enough, and gives back what the index leaves of
   it; where it isn't enough the index is made again, in as much as it wants. */
static uint32_t build(const struct source *source, dl_bytes *index, dl_fault *fault)
{
    size_t room = source->len + FIRST_ROOM;
    index->bytes = NULL;
    index->len = 0;
    for (;;) {
        uint8_t *bytes = malloc(room);
        size_t made = 0;
        if (bytes == NULL)
            return DL_NO_MEMORY;
        uint32_t status = build_into(source, bytes, room, &made, fault);
        if (made != 0 && status != DL_NO_ROOM) {
            uint8_t *less = realloc(bytes, made);
            index->bytes = less != NULL ? less : bytes;
            index->len = made;
            return status;
        }
        free(bytes);
        if (status != DL_NO_ROOM)
            return status;
        room = made;
    }
}

uint32_t dl_index_build(const uint8_t *file, size_t len, uint8_t how, dl_bytes *index, dl_fault *fault)
{
    struct source source = {.is_file = true, .bytes = file, .len = len, .how = how};
    return build(&source, index, fault);
}

uint32_t dl_index_build_section(const uint8_t *section, size_t len, uint8_t how, const uint8_t *line_str,
                                size_t line_str_len, const uint8_t *str, size_t str_len, const dl_range *code,
                                size_t code_count, dl_bytes *index, dl_fault *fault)
{
    struct source source = {.bytes = section,
                            .len = len,
                            .how = how,
                            .line_str = line_str,
                            .line_str_len = line_str_len,
                            .str = str,
                            .str_len = str_len,
                            .code = code,
                            .code_count = code_count};
    return build(&source, index, fault);
}

void dl_index_free(dl_bytes *index)
{
    free(index->bytes);
    index->bytes = NULL;
    index->len = 0;
}
