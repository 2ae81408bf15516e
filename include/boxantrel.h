/*
 * Boxantrel: line tables of DWARF 5, and of versions 2 to 4 (the section .debug_line), read out of memory, and indices of
 * them, which answer each address.
 *
 * Each call is a function of the bytes that it is given: it keeps nothing between calls, and may be called from several
 * threads at once. What it answers is proved of the code of the library, for whatever bytes come.
 *
 * The caller owes that
 * - the pointer to bytes or elements is valid for their number, a pointer to a room for as many elements as the room is
 *   said to have, and each is aligned for its type. Where the number is 0 the pointer isn't looked at, and may be null;
 * - each pointer to one struct or number is valid and aligned for its type;
 * - the layout of a dl_index is as dl_index_open or dl_index_open_unchecked wrote it;
 * - what a call writes overlaps nothing else that the same call is given;
 * - malloc, realloc and free are those of one allocator, and no call comes from a signal handler, nor from the child
 *   of a process with several threads before it runs another program.
 *
 * `section`, `len`: the bytes of a section .debug_line. `how`: what these don't say, as below. An offset counts from the
 * section's first byte. At each status, what isn't said to be written stays as it was.
 */
#ifndef BOXANTREL_H
#define BOXANTREL_H

#include <stdbool.h>
#include <stddef.h>
#include <stdint.h>

#ifdef __cplusplus
extern "C" {
#endif

/*
 * What the bytes of a section don't say: the sum of DL_BIG, where its numbers stand with the highest byte first, of one of
 * DL_OLDER_1 to DL_OLDER_8, where units of versions 2 to 4 are read too, whose headers don't have the size of an address,
 * and of DL_KEEP_GOING. Of 0 numbers stand with the lowest byte first, and version 5 alone is read. Where what is left
 * without DL_BIG and DL_KEEP_GOING is none of these sizes, version 5 alone is read too.
 */
enum {
    DL_BIG = 1,
    DL_OLDER_1 = 2,     /* versions 2 to 4 with addresses of one byte */
    DL_OLDER_2 = 4,     /* of two */
    DL_OLDER_4 = 8,     /* of four */
    DL_OLDER_8 = 16,    /* of eight */
    DL_ALL = 64,        /* only for dl_index_build and the calls beside it: each sequence counts, one that begins where there
                           is no code too */
    DL_KEEP_GOING = 128 /* dl_check, dl_find_all, dl_lines, dl_sources, dl_findings, dl_index_build and the calls beside it go on
                           after a damaged unit whose initial length is good, with the unit that begins where this length says;
                           the other calls take no notice of it */
};

/* How a call ends. */
enum {
    DL_DONE = 0,          /* what was asked for is written */
    DL_FAULT = 1,         /* the bytes are at fault, and the fault is written */
    DL_NO_ANSWER = 2,     /* no row answers, nothing is found, or the section has no byte at the offset */
    DL_NO_MEMORY = 3,     /* malloc or realloc refused memory; the same call may succeed later */
    DL_OTHER_VERSION = 4, /* a unit is of a version that isn't read, or isn't copied */
    DL_NO_ROOM = 5        /* there isn't room for the answer */
};

/* What the units of a section come to. */
typedef struct {
    uint64_t units;     /* units that are read */
    uint64_t skipped;   /* units that are passed over, for their version */
    uint64_t sequences; /* rows that end a sequence (section 6.2.5.3) */
    uint64_t rows;      /* rows, those among them */
    uint64_t damaged;   /* units that are damaged, with DL_KEEP_GOING; else 0 */
} dl_counts;

/* What is wrong with a section. */
typedef struct {
    uint64_t offset; /* of the field or the operation at fault; of the section's end for DL_TRUNCATED */
    uint64_t detail; /* the opcode of DL_STANDARD_LENGTH, the code of the form of DL_UNKNOWN_FORM; else 0 */
    uint32_t kind;   /* one of the following */
} dl_fault;

enum {
    DL_RESERVED_LENGTH = 1,   /* the initial length is 0xfffffff0 to 0xfffffffe (section 7.4) */
    DL_UNIT_TOO_LONG = 2,     /* unit_length is above 2^40 */
    DL_UNIT_OVERRUN = 3,      /* the unit ends before header_length is complete */
    DL_ADDRESS_SIZE = 4,      /* address_size isn't 1, 2, 4 or 8 */
    DL_HEADER_BEYOND_UNIT = 5,/* header_length is above the bytes left in the unit */
    DL_HEADER_OVERRUN = 6,    /* the header ends, by header_length, before its last field does */
    DL_MAX_OPS = 7,           /* maximum_operations_per_instruction is 0 */
    DL_LINE_RANGE = 8,        /* line_range is 0 */
    DL_OPCODE_BASE = 9,       /* opcode_base is 0 */
    DL_STANDARD_LENGTH = 10,  /* a standard opcode has another number of operands than in section 6.2.5.2 */
    DL_UNKNOWN_FORM = 11,     /* no form of this code may stand in a line table (section 7.5.6) */
    DL_EMPTY_FORMAT = 12,     /* there are directories or files, and their format has no pairs */
    DL_LEB_RANGE = 13,        /* a number in LEB128 doesn't fit 64 bits */
    DL_EXTENDED_EMPTY = 14,   /* an extended opcode has the length 0 */
    DL_EXTENDED_LENGTH = 15,  /* the operand of an extended opcode doesn't fill its length */
    DL_OPCODE_OVERRUN = 16,   /* the unit ends inside an opcode */
    DL_TRUNCATED = 17,        /* the section ends inside a unit */

    /* of an ELF file, which dl_index_build tells; the offset and the detail are 0 where nothing is said of them. dl_lines,
       dl_sources and dl_findings tell the last one of their section */
    DL_NOT_ELF = 32,            /* the bytes don't begin with the header of an ELF file */
    DL_DAMAGED_ELF = 33,        /* something lies outside the file, or doesn't fit what it stands in */
    DL_NO_LINE_SECTION = 34,    /* there is no section with a line table */
    DL_COMPRESSED = 35,         /* a section is compressed otherwise than with zlib */
    DL_DAMAGED_STREAM = 36,     /* a compressed section is damaged at this offset of it */
    DL_UNKNOWN_RELOCATION = 37, /* an object file has a relocation, whose number is the detail, that isn't known */
    DL_RELOCATION_OUTSIDE = 38, /* a relocation changes bytes outside its section */
    DL_SECTION_TOO_LONG = 39    /* the line section has more than 2^44 bytes, or a string section more than 2^32 */
};

/*
 * Writes the text of a fault, as far as there is room: `damage at 0x`, the offset in hexadecimal, a colon, a space, and
 * what is wrong in words, as `dwline` prints them. No zero byte comes after it. The answer is how many bytes the text
 * has, be there room for them or not; room for 128 is always enough. It is 0 where *fault is none that a call writes:
 * its kind isn't one of the above, or that of DL_STANDARD_LENGTH with a detail above 255. From DL_NOT_ELF on the text has
 * no offset, and doesn't name the section.
 */
size_t dl_fault_text(const dl_fault *fault, uint8_t *text, size_t room);

/*
 * Reads all units, and counts them, their sequences and their rows.
 * DL_DONE: the section is units to its end, and *counts is written. DL_FAULT: *fault is the first fault; with
 * DL_KEEP_GOING *counts is written too: what the units that aren't damaged come to, and how many are damaged.
 */
uint32_t dl_check(const uint8_t *section, size_t len, uint8_t how, dl_counts *counts, dl_fault *fault);

/* A row of the matrix (section 6.2.2). */
typedef struct {
    uint64_t address;
    uint64_t file;          /* a number of the unit's table of files */
    uint64_t line;          /* modulo 2^64 */
    uint64_t column;        /* from 1 on; 0 is the line's left edge */
    uint64_t isa;
    uint64_t discriminator; /* 0 where there is but one block */
    uint8_t op_index;       /* the operation in its instruction */
    uint8_t flags;          /* a sum of the following */
} dl_row;

enum {
    DL_STMT = 1,     /* is_stmt: a recommended place for a breakpoint */
    DL_BLOCK = 2,    /* basic_block: a basic block begins here */
    DL_PROLOGUE = 4, /* prologue_end: a breakpoint at the entry of a function belongs here */
    DL_EPILOGUE = 8, /* epilogue_begin: one at its exit does */
    DL_END = 16      /* end_sequence: the first address after a sequence of instructions */
};

/* A unit that was read whole (section 6.2.4). */
typedef struct {
    uint64_t offset;      /* of its first byte; the next unit, where there is one, begins at offset + length */
    uint64_t length;      /* how many bytes it has, its initial length included */
    uint64_t rows;        /* how many rows it has; where it is passed over none, nor directories and files */
    uint64_t directories; /* how many entries its table of directories has */
    uint64_t files;       /* how many entries its table of files has */
    uint16_t version;
    uint8_t address_size; /* of an address, in bytes; 0 where it is passed over */
    uint8_t is_dwarf64;   /* 1 where it is of the 64-bit DWARF format (section 7.4), else 0 */
} dl_unit;

/*
 * Reads the unit that begins at an offset, to its end, and describes it. What comes before the offset isn't looked at:
 * a unit begins at 0, and at offset + length of each unit that another one follows. Nor is what follows the unit.
 * DL_DONE: *unit is the unit. DL_NO_ANSWER: the offset is the section's end, or beyond it. DL_FAULT: *fault is the
 * first fault from the offset on.
 */
uint32_t dl_unit_at(const uint8_t *section, size_t len, uint8_t how, uint64_t offset, dl_unit *unit, dl_fault *fault);

/*
 * Lists the rows of the unit that begins at an offset, read as by dl_unit_at, as many as there is room for.
 * DL_DONE: *count is how many rows the unit has, be there room for them or not, and the first of them are written; a
 * unit that is passed over has none. DL_NO_ANSWER: as of dl_unit_at. DL_FAULT: *fault is the first fault, and
 * *count and the rows are those before it.
 */
uint32_t dl_rows_at(const uint8_t *section, size_t len, uint8_t how, uint64_t offset, dl_row *rows, size_t room,
                    size_t *count, dl_fault *fault);

/*
 * Tells the path of a file, by its number in the unit that begins at an offset, read as by dl_unit_at, as far as there
 * is room. It is joined as `dwline addr` does (section 6.2.4.1): a path that begins with a slash, or with a letter, a
 * colon and a slash or a backslash, stands for itself; any other one is under its directory, and a directory other than
 * 0 under directory 0, with a slash between, but no second one; an empty directory, and one that isn't there, puts
 * nothing before it. No byte is escaped, and no zero byte comes after it. `line_str` and `str` are the bytes of
 * .debug_line_str and .debug_str; where there is no such section its length is 0.
 * DL_DONE: *length is how many bytes the path has, be there room for them or not (2^64 - 1 where there are more), and
 * the first of them are written; the path is `??` where the unit has no file of this number, or the file's own name
 * isn't there. DL_NO_ANSWER: as of dl_unit_at. DL_OTHER_VERSION: the unit is passed over. DL_FAULT: *fault is the
 * first fault from the offset on.
 */
uint32_t dl_path_at(const uint8_t *section, size_t len, uint8_t how, uint64_t offset, uint64_t file,
                    const uint8_t *line_str, size_t line_str_len, const uint8_t *str, size_t str_len, uint8_t *path,
                    size_t room, size_t *length, dl_fault *fault);

/*
 * Tells the paths of files, by their numbers in the unit that begins at an offset, in any order and as often as they
 * come, in one pass over the unit: each as dl_path_at tells it, one after the other, with nothing between them, as far
 * as there is room.
 * DL_DONE: the paths are written, and ends[i] is where that of files[i] ends: how many bytes it and those before it
 * have (2^64 - 1 where there are more). It begins where the one before it ends, the first at 0. DL_NO_ROOM: the same,
 * but there isn't room for all bytes of the paths, of which the first are written; the last of the ends is how many
 * there are.
 * DL_NO_ANSWER, DL_OTHER_VERSION, DL_FAULT: as of dl_path_at.
 */
uint32_t dl_paths_at(const uint8_t *section, size_t len, uint8_t how, uint64_t offset, const uint64_t *files, size_t count,
                     const uint8_t *line_str, size_t line_str_len, const uint8_t *str, size_t str_len, uint8_t *paths,
                     size_t room, size_t *ends, dl_fault *fault);

/*
 * Looks up the row that answers for an address and an operation of its instruction (0 but on VLIW machines): the last
 * one that isn't above this place, of the first sequence whose rows rise and which covers it, in the first unit that
 * has one. What follows this unit isn't looked at.
 * DL_DONE: *row is the row, and *unit the offset of its unit. DL_NO_ANSWER: no unit has one. DL_FAULT: a unit is at
 * fault before any has one, and *fault tells it.
 */
uint32_t dl_find(const uint8_t *section, size_t len, uint8_t how, uint64_t address, uint8_t op_index, dl_row *row,
                 uint64_t *unit, dl_fault *fault);

/*
 * Looks up the rows that answer for addresses, in any order and as often as they come, each at the first operation of
 * its instruction: for each address the row that dl_find answers, but all in one pass over the section. It holds about
 * 200 bytes for each address, and of the units one header at a time.
 * DL_DONE: for each address rows[i] is its row, and units[i] the offset of that row's unit; where no unit answers for
 * it, units[i] is 2^64 - 1, and rows[i] stays as it was. DL_FAULT: *fault is the first fault of the section, and the
 * units before it answer, as if the section ended there; with DL_KEEP_GOING all units that aren't damaged answer, those
 * after a damaged one too. DL_NO_MEMORY: the same of the units before one whose header wants memory; or, where memory is
 * refused for the addresses, nothing is written.
 */
uint32_t dl_find_all(const uint8_t *section, size_t len, uint8_t how, const uint64_t *addresses, size_t count,
                     dl_row *rows, uint64_t *units, dl_fault *fault);

/* A place of a line: where a breakpoint on it goes. */
typedef struct {
    uint64_t address;
    uint64_t line;        /* the line that answers, modulo 2^64 */
    uint64_t column;      /* from 1 on; 0 is the line's left edge */
    uint8_t prologue_end; /* 1 where a breakpoint at the entry of a function belongs here, else 0 */
} dl_place;

/*
 * Finds the places of the line of a file, in one pass, as `dwline lines` does: of the files whose path is the one that is
 * asked for, or ends in it after a slash, the first statement of each run of rows that have the line, in each sequence.
 * Where the line has no place, that of the least line above it that has one answers, as debuggers move a breakpoint down; but
 * not with `exact`. Paths are joined as by dl_path_at, and `line_str` and `str` are as of it. The path that is asked for is
 * `path_len` bytes, of which none is escaped. The places are told by their addresses, each once for each path of a file, and
 * as many as there is room for.
 * DL_DONE: *count is how many places there are, be there room for them or not, and the first of them are written.
 * DL_NO_ANSWER: there is none. DL_FAULT: *fault is the first fault of the section, and *count and the places, of which there
 * may be none, are those of the units before it; with DL_KEEP_GOING of all units that aren't damaged, those after a damaged
 * one too.
 */
uint32_t dl_lines(const uint8_t *section, size_t len, uint8_t how, const uint8_t *line_str, size_t line_str_len,
                  const uint8_t *str, size_t str_len, const uint8_t *path, size_t path_len, uint64_t line, bool exact,
                  dl_place *places, size_t room, size_t *count, dl_fault *fault);

/* A source file, with one of its MD5 sums; one that has none without one. */
typedef struct {
    size_t path_begin; /* the byte of the paths at which its path begins */
    size_t path_len;   /* how many bytes its path has */
    uint64_t rows;     /* how many rows name it, those that end a sequence left out; 2^64 - 1 where there are more */
    uint64_t bytes;    /* how many bytes of code these rows have: the distances from their addresses to those of the next rows
                          of their sequences; 2^64 - 1 where there are more */
    uint8_t md5[16];   /* the sum; zeros where there is none */
    uint8_t has_md5;   /* 1 where there is a sum, else 0 */
} dl_source;

/*
 * Finds the source files of a section, in one pass, as `dwline sources` does: each path that a table of files names, in the
 * order of their bytes. A path has an element for each of its MD5 sums, in the order of their bytes, with the same path and
 * counts, or one where it has none: where there are two, two versions of the file were compiled. Paths are joined as by
 * dl_path_at, and `line_str` and `str` are as of it; each is told once, one after the other, with nothing between them. As
 * many elements are told as there is room for in `sources`, and as many bytes of the paths as in `paths`.
 * DL_DONE: *count is how many elements there are, and *paths_len how many bytes the paths have, be there room for them or not
 * (2^64 - 1 where there are more), and the first of them are written. DL_FAULT: *fault is the first fault of the section, and
 * *count, *paths_len and what is written, which may be none, are those of the units before it; with DL_KEEP_GOING of all units
 * that aren't damaged, those after a damaged one too.
 */
uint32_t dl_sources(const uint8_t *section, size_t len, uint8_t how, const uint8_t *line_str, size_t line_str_len,
                    const uint8_t *str, size_t str_len, dl_source *sources, size_t room, size_t *count, uint8_t *paths,
                    size_t paths_room, size_t *paths_len, dl_fault *fault);

/*
 * The rules of what misleads a debugger although it reads well, as `dwline lint` has them (docs/dwline.1). Beside each the
 * numbers that a finding of it has; those behind them are 0.
 */
enum {
    DL_RULE_FILE_INDEX = 0,         /* the file that is named, how many files there are, the number of the first */
    DL_RULE_DIRECTORY_INDEX = 1,    /* the file, the directory that it names, how many directories there are, the number
                                       of the first */
    DL_RULE_FALLING_PLACE = 2,      /* the address and the op_index of the row before it */
    DL_RULE_NO_END = 3,             /* none */
    DL_RULE_EMPTY_SEQUENCE = 4,     /* none */
    DL_RULE_OVERLAP = 5,            /* the address and the op_index of the place, the offset of the unit that covers it
                                       too */
    DL_RULE_DEAD_SEQUENCE = 6,      /* how many sequences, the address of the first; not of a section alone */
    DL_RULE_MISSING_TEXT = 7,       /* 0 for a directory or 1 for a file, its number, 0 for .debug_line_str or 1 for
                                       .debug_str, the offset there */
    DL_RULE_DUPLICATE_FILE = 8,     /* the file, the first file that has its values */
    DL_RULE_UNUSED_FILE = 9,        /* how many files, the number of the first */
    DL_RULE_MD5_MISSING = 10,       /* how many files have no MD5 sum, the number of the first */
    DL_RULE_LONG_NUMBER = 11,       /* how many bytes the number has */
    DL_RULE_PADDING = 12,           /* how many bytes */
    DL_RULE_WRAPPED_ADDRESS = 13,   /* the address before the advance, the size of an address in bytes */
    DL_RULE_LINE_WRAPPED = 14,      /* the line */
    DL_RULE_NO_STATEMENT = 15,      /* none */
    DL_RULE_SPLIT_INSTRUCTION = 16, /* the address of the first row of the sequence, minimum_instruction_length */
    DL_RULE_UNKNOWN_OPCODE = 17,    /* 0 for a standard opcode, 1 for an extended one or 2 for a content code, its number */
    DL_RULE_NO_CODE = 18            /* the address and the length in bytes of the code; not of a section alone */
};

/* A finding: where it is, and what is found. */
typedef struct {
    uint64_t offset;     /* of the operation, for a row the one that appends it; where a unit ends without an end row, its end; of a
                            header, or of the rows of a unit together, the offset of the unit */
    uint64_t rule;       /* one of the above */
    uint64_t row;        /* the number of the row in its unit, from 1 on; 0 where it is about no row */
    uint64_t address;    /* of that row, or 0 */
    uint64_t op_index;   /* of that row, or 0 */
    uint64_t numbers[4]; /* as beside the rule */
} dl_finding;

/*
 * Finds what in a section misleads a debugger, in one pass, as `dwline lint` does of a section alone: each sequence counts,
 * and which code there is isn't known. Of `rules` the bit 1 << DL_RULE_FILE_INDEX asks for the findings of that rule, and
 * so on; UINT32_MAX asks for all, since bits that are of no rule count for nothing. `line_str` and `str` are as of
 * dl_path_at: where one of them has no bytes, each text that a table has in it is missing. The findings are told in the
 * order of the section, and as many as there is room for; they are held in memory of the library before.
 * DL_DONE: *count is how many findings there are, be there room for them or not, and the first of them are written.
 * DL_NO_ANSWER: there is none. DL_FAULT: *fault is the first fault of the section, and *count and the findings, of which
 * there may be none, are those before it; with DL_KEEP_GOING of all units, in damaged ones up to their faults.
 */
uint32_t dl_findings(const uint8_t *section, size_t len, uint8_t how, uint32_t rules, const uint8_t *line_str, size_t line_str_len,
                     const uint8_t *str, size_t str_len, dl_finding *findings, size_t room, size_t *count, dl_fault *fault);

/*
 * Writes all units anew, each under its header with opcode_base 13 and with the same rows, its numbers shortest. The
 * copy is held in memory of the library until it is whole.
 * DL_DONE: *copied is how many bytes the copy has, and out begins with it. DL_NO_ROOM: *copied is the same, more than
 * the room is; nothing else is written. DL_FAULT: *fault is the first fault; DL_UNIT_TOO_LONG is also that of a unit
 * whose copy would be too long, at the unit's offset. DL_OTHER_VERSION: a unit isn't of version 5, and no fault
 * comes before it. DL_NO_MEMORY: also where the section has more than 2^44 bytes.
 */
uint32_t dl_copy(const uint8_t *section, size_t len, uint8_t how, uint8_t *out, size_t room, size_t *copied,
                 dl_fault *fault);

/*
 * An index: bytes, made once of a file, that tell of each address what `dwline addr` tells of it, in the time of one
 * search. `dwline index` writes them, and dl_index_build makes them. They are read where they stand, which may be a
 * mapped file: none is copied, no call over an index takes memory, and none writes to a dl_index but dl_index_open and
 * dl_index_open_unchecked, so that threads may share one. They stay where and as they are while a dl_index, or a text
 * that was told, is used.
 */

/* The numbers of the header of an index, and where its parts stand. It is for the library, which finds the parts by it. */
typedef struct {
    uint64_t base;
    size_t len;
    size_t counts[4];
    size_t places[8];
    uint8_t widths[5];
} dl_index_layout;

/* An index that was opened. */
typedef struct {
    const uint8_t *bytes;
    size_t len;
    size_t stretches;        /* how many it has, gaps among them */
    const uint8_t *build_id; /* of the file that it was made of; the first 32 bytes of a longer one */
    size_t build_id_len;     /* 0 where the file has none */
    bool all;                /* each sequence counts, one that begins where there is no code too */
    dl_index_layout layout;
} dl_index;

/* Why bytes aren't an index: the first check that fails. */
typedef struct {
    uint32_t kind;    /* one of the following */
    uint32_t version; /* that of DL_INDEX_VERSION; else 0 */
} dl_index_fault;

enum {
    DL_INDEX_MAGIC = 1,   /* they don't begin with `dlineidx` */
    DL_INDEX_VERSION = 2, /* the index is of a version other than 1 */
    DL_INDEX_LENGTH = 3,  /* there are fewer bytes than the header has, or not as many as it says */
    DL_INDEX_PLACE = 4,   /* the parts of the index don't end where the bytes do */
    DL_INDEX_SUM = 5,     /* a check value, of the header or of what follows it, is another one */
    DL_INDEX_ORDER = 6,   /* the first addresses of its stretches don't rise, or one is 2^64 or above */
    DL_INDEX_FILE = 7,    /* a stretch names a file that there isn't */
    DL_INDEX_TEXT = 8     /* a file names a text that there isn't, or a text lies outside the index */
};

/*
 * Writes the text of such a fault, as far as there is room, as `dwline` prints it. No zero byte comes after it. The
 * answer is how many bytes it has, be there room for them or not; room for 64 is always enough. It is 0 where
 * *fault is none that a call writes.
 */
size_t dl_index_fault_text(const dl_index_fault *fault, uint8_t *text, size_t room);

/*
 * Opens an index, whose bytes are checked whole, in one pass.
 * DL_DONE: *index is written, which the calls below take. DL_FAULT: *fault tells why they are none.
 */
uint32_t dl_index_open(const uint8_t *bytes, size_t len, dl_index *index, dl_index_fault *fault);

/*
 * The same without the pass over what stands after the first 128 bytes, in a time that doesn't grow with the index. Of an
 * index that is damaged there the answers are wrong, or none; whatever the bytes are, none outside is read.
 */
uint32_t dl_index_open_unchecked(const uint8_t *bytes, size_t len, dl_index *index, dl_index_fault *fault);

/* Bytes that belong to what they were told of. */
typedef struct {
    const uint8_t *bytes;
    size_t len;
} dl_text;

/* What an index tells of an address. */
typedef struct {
    uint64_t unit;          /* the offset of the unit in the line section */
    uint64_t line;          /* modulo 2^64 */
    uint64_t column;        /* from 1 on; 0 is the line's left edge */
    uint64_t discriminator; /* 0 where there is but one block */
    dl_text texts[3];       /* the path: these, one after the other, in the bytes of the index. A text that it doesn't
                               need has the length 0 */
    bool is_stmt;           /* a recommended place for a breakpoint */
    bool has_path;          /* the path is known; else it has no texts */
    bool is_found;          /* something is told; else all numbers are 0 */
} dl_location;

/*
 * Looks an address up.
 * DL_DONE: *location is what is told of it. DL_NO_ANSWER: nothing is. DL_FAULT: the bytes are others now, with another
 * length or another header than those that were opened.
 */
uint32_t dl_index_find(const dl_index *index, uint64_t address, dl_location *location);

/*
 * Looks addresses up, in any order and as often as they come, four at a time, which is faster.
 * DL_DONE: locations[i] is what is told of addresses[i], or says that nothing is. DL_FAULT: as of dl_index_find.
 */
uint32_t dl_index_find_many(const dl_index *index, const uint64_t *addresses, size_t count, dl_location *locations);

/*
 * Joins the path of a location that was told of the index, as far as there is room: `??` where it isn't known. No zero
 * byte comes after it. The answer is how many bytes it has, be there room for them or not.
 */
size_t dl_index_path(const dl_index *index, const dl_location *location, uint8_t *path, size_t room);

/*
 * Tells a stretch, by its number from 0 on: a run of addresses, as long as can be, of which the same is told. They stand in
 * rising order, the gaps between them too, and the last one is a gap.
 * DL_DONE: *start is its first address, *last its last one, and *location what is told of them, or that nothing is.
 * DL_NO_ANSWER: there is no such stretch. DL_FAULT: as of dl_index_find.
 */
uint32_t dl_index_stretch(const dl_index *index, size_t number, uint64_t *start, uint64_t *last, dl_location *location);

/* Bytes that a call took by malloc. */
typedef struct {
    uint8_t *bytes;
    size_t len;
} dl_bytes;

/*
 * Makes the index of an ELF file, whose bytes are handed in (a mapped file, say), as `dwline index` does: of its units of
 * versions 2 to 5, in compressed sections too, with the directories that .debug_info says, and with its build ID; of those
 * sequences that begin where the file has code. In an object file the sequences of its code answer. `how`: 0, DL_ALL,
 * DL_KEEP_GOING or both.
 * DL_DONE: *index is the index, whose bytes the caller owes dl_index_free. DL_FAULT: *fault is the first fault, of the file or
 * of its line section; with DL_KEEP_GOING, where units are damaged, *index is written too, and else its bytes are null.
 * DL_NO_MEMORY: its bytes are null.
 */
uint32_t dl_index_build(const uint8_t *file, size_t len, uint8_t how, dl_bytes *index, dl_fault *fault);

/* Gives the bytes of an index back that a call took by malloc; nothing where they are null. */
void dl_index_free(dl_bytes *index);

/*
 * The same into room of the caller.
 * DL_DONE: *made is how many bytes the index has, and out begins with it. DL_NO_ROOM: *made is the same, more than the room
 * is; nothing else is written. DL_FAULT: *fault is written, and with DL_KEEP_GOING, where units are damaged, *made and the
 * bytes too; else *made is 0. An index is nearly always shorter than its file.
 */
uint32_t dl_index_build_into(const uint8_t *file, size_t len, uint8_t how, uint8_t *out, size_t room, size_t *made,
                             dl_fault *fault);

/* A range of addresses that have code. */
typedef struct {
    uint64_t start; /* the first one */
    uint64_t size;  /* how many there are */
} dl_range;

/*
 * Makes the index of a section: of those sequences that begin in the ranges `code`, which stand in any order, or of all
 * where there are none. `how`: as of the other calls over a section, and DL_ALL. `line_str` and `str` as of dl_path_at.
 * The paths stand as the section says them, and the index has no build ID.
 * As of dl_index_build.
 */
uint32_t dl_index_build_section(const uint8_t *section, size_t len, uint8_t how, const uint8_t *line_str,
                                size_t line_str_len, const uint8_t *str, size_t str_len, const dl_range *code,
                                size_t code_count, dl_bytes *index, dl_fault *fault);

/* The same into room of the caller, as of dl_index_build_into. */
uint32_t dl_index_build_section_into(const uint8_t *section, size_t len, uint8_t how, const uint8_t *line_str,
                                     size_t line_str_len, const uint8_t *str, size_t str_len, const dl_range *code,
                                     size_t code_count, uint8_t *out, size_t room, size_t *made, dl_fault *fault);

#ifdef __cplusplus
}
#endif

#endif
