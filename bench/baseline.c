/* What dwline is measured against: a plain C program that reads a whole little-endian .debug_line
 * into memory and decodes each unit of version 5 once, without any check. It must not be given
 * bytes that nobody trusts.
 *
 *     baseline check < section     counts units, sequences and rows
 *     baseline dump < section      writes the same text as `dwline dump` without string sections
 */
#include <stdbool.h>
#include <stdint.h>
#include <stdio.h>
#include <stdlib.h>
#include <string.h>
#include <unistd.h>

enum { BUFFER = 1 << 20, LINE = 512 };

struct row {
    uint64_t address, file, line, column, isa, discriminator;
    uint8_t op_index;
    bool is_stmt, basic_block, end_sequence, prologue_end, epilogue_begin;
};

static bool dumping;
static uint64_t units, skipped, sequences, rows;

/* Output. `room` is called before each short text, so that the puts below need no test. */

static char buffer[BUFFER + LINE];
static size_t used;

static void flush(void)
{
    size_t done = 0;

    while (done < used) {
        ssize_t n = write(1, buffer + done, used - done);
        if (n <= 0)
            exit(3);
        done += n;
    }
    used = 0;
}

static inline void room(void)
{
    if (used >= BUFFER)
        flush();
}

static inline void put_text(const char *text)
{
    size_t length = strlen(text);

    memcpy(buffer + used, text, length);
    used += length;
}

static inline void put_decimal(uint64_t number)
{
    char digits[20];
    int count = 0;

    do {
        digits[count++] = '0' + number % 10;
        number /= 10;
    } while (number);
    while (count)
        buffer[used++] = digits[--count];
}

static inline void put_digits(uint64_t number, int count)
{
    for (int shift = 4 * (count - 1); shift >= 0; shift -= 4)
        buffer[used++] = "0123456789abcdef"[number >> shift & 15];
}

static void put_hexadecimal(uint64_t number)
{
    int count = 1;

    while (count < 16 && number >> 4 * count)
        count++;
    put_text("0x");
    put_digits(number, count);
}

static void put_quoted(const uint8_t *text)
{
    put_text("\"");
    for (; *text; text++) {
        room();
        if (*text < 0x20 || *text == 0x7f || *text == '"' || *text == '\\') {
            put_text("\\x");
            put_digits(*text, 2);
        } else {
            buffer[used++] = *text;
        }
    }
    put_text("\"");
}

static inline void put_row(const struct row *row)
{
    room();
    put_text("row 0x");
    put_digits(row->address, 16);
    put_text(" ");
    put_decimal(row->op_index);
    put_text(" ");
    put_decimal(row->file);
    put_text(" ");
    put_decimal(row->line);
    put_text(" ");
    put_decimal(row->column);
    if (row->is_stmt)
        put_text(" stmt");
    if (row->basic_block)
        put_text(" block");
    if (row->prologue_end)
        put_text(" prologue");
    if (row->epilogue_begin)
        put_text(" epilogue");
    if (row->end_sequence)
        put_text(" end");
    if (row->isa) {
        put_text(" isa ");
        put_decimal(row->isa);
    }
    if (row->discriminator) {
        put_text(" disc ");
        put_decimal(row->discriminator);
    }
    put_text("\n");
}

/* Input. */

static inline uint64_t number(const uint8_t **at, int size)
{
    uint64_t value = 0;

    memcpy(&value, *at, size);
    *at += size;
    return value;
}

static inline uint64_t uleb(const uint8_t **at)
{
    uint64_t value = 0;
    int shift = 0;
    uint8_t byte;

    do {
        byte = *(*at)++;
        value |= (uint64_t)(byte & 127) << shift;
        shift += 7;
    } while (byte & 128);
    return value;
}

static inline int64_t sleb(const uint8_t **at)
{
    uint64_t value = 0;
    int shift = 0;
    uint8_t byte;

    do {
        byte = *(*at)++;
        value |= (uint64_t)(byte & 127) << shift;
        shift += 7;
    } while (byte & 128);
    if (byte & 64 && shift < 64)
        value |= -(uint64_t)1 << shift;
    return value;
}

/* One value of an entry, by its form; passed over where nothing is dumped. */
static void value(const uint8_t **at, uint64_t form, int offset_size)
{
    uint64_t length;

    switch (form) {
    case 0x08: /* string */
        if (dumping)
            put_quoted(*at);
        *at += strlen((const char *)*at) + 1;
        return;
    case 0x0b: length = 1; goto fixed;
    case 0x05: length = 2; goto fixed;
    case 0x06: length = 4; goto fixed;
    case 0x07: length = 8;
    fixed:
        length = number(at, length);
        if (dumping)
            put_decimal(length);
        return;
    case 0x0f: /* udata */
        length = uleb(at);
        if (dumping)
            put_decimal(length);
        return;
    case 0x0e: case 0x1d: case 0x1f: /* strp, strp_sup, line_strp */
        length = number(at, offset_size);
        if (dumping) {
            put_text(form == 0x0e ? "strp+" : form == 0x1d ? "strp_sup+" : "line_strp+");
            put_hexadecimal(length);
        }
        return;
    case 0x1e: length = 16; break;
    case 0x0a: length = number(at, 1); break;
    case 0x03: length = number(at, 2); break;
    case 0x04: length = number(at, 4); break;
    default: length = uleb(at); break; /* block */
    }
    if (dumping && form != 0x1e)
        put_text("block:");
    for (uint64_t i = 0; i < length && dumping; i++) {
        room();
        put_digits((*at)[i], 2);
    }
    *at += length;
}

/* A table: its format, then its entries, one line each. */
static void table(const uint8_t **at, const char *name, int offset_size)
{
    static const char *const contents[] = { 0, "path", "dir", "time", "size", "md5" };
    uint64_t content[255], form[255];
    int pairs = *(*at)++;

    for (int i = 0; i < pairs; i++) {
        content[i] = uleb(at);
        form[i] = uleb(at);
    }
    uint64_t count = uleb(at);
    for (uint64_t entry = 0; entry < count; entry++) {
        if (dumping) {
            put_text(name);
            put_decimal(entry);
        }
        for (int i = 0; i < pairs; i++) {
            if (dumping) {
                room();
                put_text(" ");
                if (content[i] >= 1 && content[i] <= 5)
                    put_text(contents[content[i]]);
                else
                    put_hexadecimal(content[i]);
                put_text("=");
            }
            value(at, form[i], offset_size);
        }
        if (dumping)
            put_text("\n");
    }
}

struct params {
    uint8_t minimum, maximum, default_is_stmt, line_range, opcode_base;
    int8_t line_base;
    const uint8_t *lengths;
    uint64_t address_mask;
};

static inline void advance(struct row *row, const struct params *params, uint64_t by)
{
    if (params->maximum == 1) {
        row->address += params->minimum * by;
    } else {
        row->address += params->minimum * ((row->op_index + by) / params->maximum);
        row->op_index = (row->op_index + by) % params->maximum;
    }
}

static inline void append(struct row *row, const struct params *params)
{
    rows++;
    row->address &= params->address_mask;
    if (dumping)
        put_row(row);
    row->basic_block = row->prologue_end = row->epilogue_begin = false;
    row->discriminator = 0;
}

static void program(const uint8_t *at, const uint8_t *end, const struct params *params)
{
    const struct row start = { .file = 1, .line = 1, .is_stmt = params->default_is_stmt };
    struct row row = start;
    bool in_sequence = false;

    while (at < end) {
        uint8_t opcode = *at++;
        if (opcode >= params->opcode_base) {
            uint8_t adjusted = opcode - params->opcode_base;
            row.line += params->line_base + adjusted % params->line_range;
            advance(&row, params, adjusted / params->line_range);
            append(&row, params);
            in_sequence = true;
            continue;
        }
        switch (opcode) {
        case 0: {
            uint64_t length = uleb(&at);
            const uint8_t *next = at + length;
            switch (*at++) {
            case 1:
                row.end_sequence = true;
                append(&row, params);
                sequences++;
                row = start;
                in_sequence = false;
                break;
            case 2:
                row.address = number(&at, length - 1);
                row.op_index = 0;
                break;
            case 4:
                row.discriminator = uleb(&at);
                break;
            }
            at = next;
            break;
        }
        case 1: append(&row, params); in_sequence = true; break;
        case 2: advance(&row, params, uleb(&at)); break;
        case 3: row.line += sleb(&at); break;
        case 4: row.file = uleb(&at); break;
        case 5: row.column = uleb(&at); break;
        case 6: row.is_stmt = !row.is_stmt; break;
        case 7: row.basic_block = true; break;
        case 8:
            advance(&row, params, (255 - params->opcode_base) / params->line_range);
            break;
        case 9: row.address += number(&at, 2); row.op_index = 0; break;
        case 10: row.prologue_end = true; break;
        case 11: row.epilogue_begin = true; break;
        case 12: row.isa = uleb(&at); break;
        default:
            for (int i = 0; i < params->lengths[opcode - 1]; i++)
                uleb(&at);
        }
    }
    if (dumping && in_sequence)
        put_text("open\n");
}

/* Decodes the unit at `at` and answers where the next one stands. */
static const uint8_t *unit(const uint8_t *at, uint64_t offset)
{
    struct params params;
    int offset_size = 4;
    uint64_t length = number(&at, 4);

    if (length == 0xffffffff) {
        offset_size = 8;
        length = number(&at, 8);
    }
    const uint8_t *end = at + length;
    uint64_t version = number(&at, 2);
    if (dumping) {
        room();
        put_text("unit ");
        put_hexadecimal(offset);
        if (version == 5)
            put_text(offset_size == 4 ? " dwarf32" : " dwarf64");
        put_text(" version ");
        put_decimal(version);
    }
    if (version != 5) {
        skipped++;
        if (dumping)
            put_text(" skipped\n");
        return end;
    }
    units++;
    uint8_t address_size = *at++;
    if (dumping) {
        put_text(" address_size ");
        put_decimal(address_size);
        put_text("\n");
    }
    params.address_mask = address_size < 8 ? ((uint64_t)1 << 8 * address_size) - 1 : UINT64_MAX;
    at++; /* segment_selector_size */
    uint64_t header_length = number(&at, offset_size);
    const uint8_t *start = at + header_length;
    params.minimum = *at++;
    params.maximum = *at++;
    params.default_is_stmt = *at++;
    params.line_base = *at++;
    params.line_range = *at++;
    params.opcode_base = *at++;
    params.lengths = at;
    at += params.opcode_base - 1;
    table(&at, "dir ", offset_size);
    table(&at, "file ", offset_size);
    program(start, end, &params);
    return end;
}

int main(int count, char **words)
{
    size_t size = 0, space = 1 << 20;
    uint8_t *section = malloc(space);
    ssize_t n;

    if (count != 2 || (strcmp(words[1], "check") && strcmp(words[1], "dump")))
        return 2;
    dumping = !strcmp(words[1], "dump");
    while (section && (n = read(0, section + size, space - size)) > 0)
        if ((size += n) == space)
            section = realloc(section, space *= 2);
    if (!section)
        return 3;
    for (const uint8_t *at = section; at < section + size;)
        at = unit(at, at - section);
    if (dumping)
        flush();
    else
        printf("units %llu skipped %llu sequences %llu rows %llu\n", (unsigned long long)units,
               (unsigned long long)skipped, (unsigned long long)sequences,
               (unsigned long long)rows);
    return 0;
}
