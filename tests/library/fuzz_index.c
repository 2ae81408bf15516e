/*
 * fuzz_index ROUNDS FILE..: indices of the ELF files, made of them with changed bytes and random ends, and then changed
 * themselves, with their sums mended or not; and random addresses, stretches and rooms, which may be null where they have no
 * elements. Each file, each index, and each struct and room that is written, ends at a page that can't be touched; what a
 * call may not write is compared afterwards.
 */
#include <boxantrel.h>
#include <stdio.h>
#include <stdlib.h>
#include <string.h>
#include <sys/mman.h>
#include <unistd.h>

enum { MOST = 1 << 17, MOST_PATH = 512, MOST_TEXT = 64, MOST_ASKED = 70, FILL = 0xa5 };

static uint64_t state;

/* The next random number (splitmix64). */
static uint64_t next(void)
{
    uint64_t z = state += 0x9e3779b97f4a7c15;
    z = (z ^ z >> 30) * 0xbf58476d1ce4e5b9;
    z = (z ^ z >> 27) * 0x94d049bb133111eb;
    return z ^ z >> 31;
}

static uint64_t below(uint64_t n)
{
    return next() % n;
}

static void wanted(bool holds, const char *what)
{
    if (!holds) {
        fprintf(stderr, "fuzz_index: %s\n", what);
        abort();
    }
}

/* The end of `most` bytes, after which a page can't be touched. */
static uint8_t *guarded(size_t most)
{
    size_t page = (size_t)sysconf(_SC_PAGESIZE);
    size_t size = (most + page - 1) / page * page;
    uint8_t *at = mmap(NULL, size + page, PROT_READ | PROT_WRITE, MAP_PRIVATE | MAP_ANONYMOUS, -1, 0);
    wanted(at != MAP_FAILED, "no memory");
    wanted(mprotect(at + size, page, PROT_NONE) == 0, "no guard page");
    return at + size;
}

/* Whether all bytes are as they were filled. */
static bool is_filled(const void *at, size_t len)
{
    const uint8_t *bytes = at;
    for (size_t i = 0; i < len; i++)
        if (bytes[i] != FILL)
            return false;
    return true;
}

/* Where so many elements are: where there are none, now and then nowhere. */
static void *or_null(void *elements, size_t count)
{
    return count > 0 || below(2) ? elements : NULL;
}

static uint8_t *file_end, *index_end, *out_end, *path_end, *text_end;
static dl_location *location, *locations_end;
static uint64_t *addresses_end, *start, *last;
static dl_fault *fault;
static dl_index_fault *why;

/* The check value of bytes (CRC-32, as of zlib), after others whose value is this. */
static uint32_t crc(uint32_t value, const uint8_t *bytes, size_t len)
{
    value = ~value;
    for (size_t i = 0; i < len; i++) {
        value ^= bytes[i];
        for (int bit = 0; bit < 8; bit++)
            value = value >> 1 ^ (value & 1 ? 0xedb88320 : 0);
    }
    return ~value;
}

/* Mends the sums of an index, as far as it has a header. */
static void mend(uint8_t *index, size_t len)
{
    static const uint8_t zeros[4];
    if (len < 128)
        return;
    uint32_t body = crc(0, index + 128, len - 128);
    memcpy(index + 72, &body, 4);
    uint32_t header = crc(crc(crc(0, index, 76), zeros, 4), index + 80, 48);
    memcpy(index + 76, &header, 4);
}

/* Whether a text lies in the index, or is none. */
static void check_text(const dl_index *index, const dl_text *text)
{
    wanted(text->len == 0 || (text->bytes >= index->bytes && text->len <= index->len &&
                              (size_t)(text->bytes - index->bytes) <= index->len - text->len),
           "a text outside the index");
}

/* Joins the path of a location into a room. */
static void check_path(const dl_index *index, const dl_location *told, size_t room)
{
    memset(path_end - MOST_PATH, FILL, MOST_PATH);
    uint8_t *path = path_end - room;
    size_t length = dl_index_path(index, told, or_null(path, room), room), texts = 0;
    for (int i = 0; i < 3; i++) {
        check_text(index, &told->texts[i]);
        texts += told->texts[i].len;
    }
    wanted(length == (told->has_path ? texts : 2), "a path of another length than its texts");
    wanted(is_filled(path_end - MOST_PATH, MOST_PATH - room), "a path before its room");
    wanted(length >= room || is_filled(path + length, room - length), "more than the path");
}

/* Looks addresses up, all at once and each by itself. */
static void check_find(const dl_index *index, size_t asked)
{
    uint64_t *addresses = addresses_end - asked;
    dl_location *locations = locations_end - asked;
    memset(locations_end - MOST_ASKED, FILL, MOST_ASKED * sizeof *locations_end);
    for (size_t i = 0; i < asked; i++)
        addresses[i] = below(4) ? 0x401000 + below(512) : below(2) ? below(4096) : next();
    wanted(dl_index_find_many(index, or_null(addresses, asked), asked, or_null(locations, asked)) == DL_DONE,
           "no answers of an index");
    wanted(is_filled(locations_end - MOST_ASKED, (MOST_ASKED - asked) * sizeof *locations), "a location before its room");
    for (size_t i = 0; i < asked; i++) {
        memset(location, FILL, sizeof *location);
        uint32_t status = dl_index_find(index, addresses[i], location);
        wanted(status == (locations[i].is_found ? (uint32_t)DL_DONE : DL_NO_ANSWER), "another end than that of many");
        if (status != DL_DONE) {
            wanted(is_filled(location, sizeof *location), "a location that isn't told");
            continue;
        }
        wanted(location->line == locations[i].line && location->unit == locations[i].unit &&
                   location->texts[0].len == locations[i].texts[0].len,
               "another answer than that of many");
        check_path(index, location, below(MOST_PATH));
    }
}

/* Lists some stretches. */
static void check_stretches(const dl_index *index)
{
    for (int i = 0; i < 8; i++) {
        size_t number = below(2) ? below(index->stretches + 2) : next();
        memset(location, FILL, sizeof *location);
        memset(start, FILL, sizeof *start);
        memset(last, FILL, sizeof *last);
        uint32_t status = dl_index_stretch(index, number, start, last, location);
        wanted(status == DL_DONE || status == DL_NO_ANSWER, "another end of a stretch");
        wanted(status == DL_NO_ANSWER || number < index->stretches, "a stretch beyond the last");
        if (status == DL_DONE)
            check_path(index, location, below(MOST_PATH));
        else
            wanted(is_filled(location, sizeof *location) && is_filled(start, sizeof *start) && is_filled(last, sizeof *last),
                   "a stretch that isn't told");
    }
}

/* Asks with a layout in bytes of another length, and in bytes of the same length, of which the header may be another one. */
static void check_other(const dl_index *index, const uint8_t *bytes, size_t len)
{
    dl_index other = *index;
    uint64_t asked[5] = {0x401000, next(), 0, 0x401008, next()};
    other.bytes = or_null((void *)bytes, len);
    other.len = len;
    memset(locations_end - 5, FILL, 5 * sizeof *location);
    memset(location, FILL, sizeof *location);
    uint32_t status = dl_index_find(&other, asked[0], location), many = dl_index_find_many(&other, asked, 5, locations_end - 5);
    bool is_same = len == index->len && memcmp(bytes, index->bytes, 128) == 0;
    wanted((status == DL_FAULT) == (many == DL_FAULT), "another end than that of many");
    wanted(!is_same || status != DL_FAULT, "a fault of bytes that were opened");
    wanted(len == index->len || status == DL_FAULT, "an answer of bytes of another length");
    wanted(status == DL_DONE || is_filled(location, sizeof *location), "a location that isn't told");
    wanted(many != DL_FAULT || is_filled(locations_end - 5, 5 * sizeof *location), "locations that aren't told");
    if (status == DL_DONE)
        for (int i = 0; i < 3; i++)
            check_text(&other, &location->texts[i]);
    wanted(dl_index_stretch(&other, 0, start, last, location) == DL_FAULT || status != DL_FAULT, "another end of a stretch");
}

/* Writes the text of a fault of an index into a room. */
static void check_fault_text(size_t room)
{
    memset(text_end - MOST_TEXT, FILL, MOST_TEXT);
    uint8_t *text = text_end - room;
    size_t length = dl_index_fault_text(why, or_null(text, room), room);
    bool is_kind = why->kind >= DL_INDEX_MAGIC && why->kind <= DL_INDEX_TEXT;
    wanted(length <= MOST_TEXT && (length > 0) == is_kind, "a text of no fault, or none of one");
    wanted(is_filled(text_end - MOST_TEXT, MOST_TEXT - room), "a text before its room");
    wanted(length >= room || is_filled(text + length, room - length), "more than the text");
}

/* Opens bytes both ways, and asks what opens. The answer is whether the whole check passes. */
static bool check_index(const uint8_t *bytes, size_t len)
{
    dl_index index, other;
    memset(why, FILL, sizeof *why);
    uint32_t status = dl_index_open(bytes, len, &index, why);
    if (status == DL_DONE) {
        wanted(is_filled(why, sizeof *why), "a fault that isn't told");
    } else {
        wanted(status == DL_FAULT && why->kind >= DL_INDEX_MAGIC && why->kind <= DL_INDEX_TEXT, "a fault of no kind");
        wanted((why->version != 0) <= (why->kind == DL_INDEX_VERSION), "a version of no other one");
        check_fault_text(below(MOST_TEXT + 1));
    }
    uint32_t front = dl_index_open_unchecked(bytes, len, &other, why);
    wanted(front == DL_DONE || status != DL_DONE, "an index whose header isn't one");
    if (front == DL_DONE) {
        wanted(other.build_id_len <= 32 && other.stretches <= len, "an index beyond its bytes");
        check_find(&other, below(MOST_ASKED + 1));
        check_stretches(&other);
    }
    why->kind = (uint32_t)next();
    check_fault_text(below(MOST_TEXT + 1));
    return status == DL_DONE;
}

/* Makes the index of a file into a room. The answer is how many bytes it has; 0 where there is none. */
static size_t check_build(const uint8_t *file, size_t len, uint8_t how, size_t room)
{
    size_t made = 7;
    dl_bytes built;
    dl_fault other;
    memset(fault, FILL, sizeof *fault);
    memset(out_end - MOST, FILL, MOST);
    uint8_t *out = out_end - room;
    uint32_t status = dl_index_build_into(file, len, how, or_null(out, room), room, &made, fault);
    wanted(is_filled(out_end - MOST, MOST - room), "an index before its room");
    wanted(is_filled(fault, sizeof *fault) == (status != DL_FAULT), "a fault that isn't told");
    wanted(status != DL_NO_ROOM || (made > room && is_filled(out, room)), "no room where there is some");
    wanted(status == DL_DONE || status == DL_FAULT || status == DL_NO_ROOM, "another end of a file");
    uint32_t again = dl_index_build(file, len, how, &built, &other);
    wanted(status == DL_NO_ROOM || status == again, "another end the second time");
    wanted(made == built.len, "an index of another length");
    if (status != DL_NO_ROOM && made > 0)
        wanted(made <= room && memcmp(out, built.bytes, made) == 0 && is_filled(out + made, room - made), "another index");
    if (made > 0) {
        memcpy(out_end - made, built.bytes, made);
        wanted(check_index(out_end - made, made), "an index that doesn't open");
        memcpy(index_end - made, out_end - made, made);
    } else {
        wanted(again == DL_FAULT, "no index, and no fault");
    }
    dl_index_free(&built);
    wanted(built.bytes == NULL, "bytes that were given back");
    return made;
}

/* Changes an index that ends at its page, and may cut it. It is asked with its layout from before, and by itself. */
static void change_index(size_t made)
{
    size_t len = below(8) ? made : below(made + 1);
    uint8_t *index = index_end - len;
    memmove(index, index_end - made, len);
    for (uint64_t changes = below(5); changes > 0 && len > 0; changes--) {
        size_t at = below(4) || len <= 128 ? below(len) : 128 + below(len - 128);
        index[at] = below(2) ? (uint8_t)next() : index[at] ^ 1 << below(8);
    }
    if (below(4))
        mend(index, len);
    dl_index opened;
    wanted(dl_index_open(out_end - made, made, &opened, why) == DL_DONE, "an index that doesn't open");
    check_other(&opened, index, len);
    check_index(index, len);
}

int main(int count, char **words)
{
    wanted(count > 2, "no rounds, or no files");
    file_end = guarded(MOST);
    index_end = guarded(MOST);
    out_end = guarded(MOST);
    path_end = guarded(MOST_PATH);
    text_end = guarded(MOST_TEXT);
    location = (dl_location *)guarded(sizeof *location) - 1;
    locations_end = (dl_location *)guarded(MOST_ASKED * sizeof *locations_end);
    addresses_end = (uint64_t *)guarded(MOST_ASKED * sizeof *addresses_end);
    start = (uint64_t *)guarded(sizeof *start) - 1;
    last = (uint64_t *)guarded(sizeof *last) - 1;
    fault = (dl_fault *)guarded(sizeof *fault) - 1;
    why = (dl_index_fault *)guarded(sizeof *why) - 1;
    static uint8_t whole[MOST];
    size_t indices = 0;
    for (long round = 0; round < atol(words[1]); round++) {
        FILE *file = fopen(words[2 + round % (count - 2)], "rb");
        wanted(file != NULL, words[2 + round % (count - 2)]);
        size_t held = fread(whole, 1, MOST, file), len = below(4) ? held : below(held + 1);
        fclose(file);
        memcpy(file_end - len, whole, len);
        for (uint64_t changes = below(3) ? 0 : below(6); changes > 0 && len > 0; changes--)
            file_end[-1 - (ptrdiff_t)below(len)] = (uint8_t)next();
        size_t made = check_build(file_end - len, len, (uint8_t)next() & (DL_ALL | DL_KEEP_GOING),
                                  below(2) ? MOST : below(4096));
        indices += made > 0;
        for (int i = 0; i < 6 && made > 0; i++) {
            memcpy(index_end - made, out_end - made, made);
            change_index(made);
        }
    }
    printf("fuzz_index: %zu indices\n", indices);
    return 0;
}
