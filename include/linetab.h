/* linetab: DWARF 5 line number sections judged and looked up, by code that is proved (docs/EMBEDDING.md).
 *
 * Link with liblinetab.a, and with linetab_heap.c or with a heap of your own (below). No call keeps anything: what it
 * allocates is free again when it returns, and calls may run in any number of threads at once.
 *
 * What the caller owes to each call: no pointer is null, also where its length is 0 (then it may be any other address, as
 * that of ""); each points to as many elements as its length says; what a call writes overlaps nothing else that it is
 * given; a bool is 0 or 1. What the bytes of sections and tables are is no matter.
 *
 * What a call puts into a room stands at its beginning, and what is behind it stays as it was. A room that is too short stays as it
 * was too, but for that of linetab_verify. */
#ifndef LINETAB_H
#define LINETAB_H

#include <stdbool.h>
#include <stddef.h>
#include <stdint.h>

#ifdef __cplusplus
extern "C" {
#endif

/* A million for each major version, a thousand for each minor one, and the patch. What a later version of the same major
 * one adds are new calls and new numbers; before version 1 it may be anything. */
#define LINETAB_VERSION 10000

/* The LINETAB_VERSION that the library was built with. */
uint32_t linetab_version(void);

/* A section, the string sections that its paths lie in, and how it is to be read. */
struct linetab_section {
    const uint8_t *line; /* .debug_line */
    size_t line_len;
    const uint8_t *line_str; /* .debug_line_str */
    size_t line_str_len;
    const uint8_t *str; /* .debug_str */
    size_t str_len;
    uint64_t dead;    /* the address at which the linker left discarded code, where has_dead is true */
    bool has_dead;
    bool is_big;      /* the section's numbers are big-endian */
    bool skip_copies; /* of several sequences with the same first and last position the first alone counts */
};

/* What is answered at a position. */
struct linetab_answer {
    uint64_t unit; /* the offset in the section of the unit that says so */
    uint64_t file; /* the index of the file in that unit, from 0 on */
    uint64_t line; /* 1 is the first, 0 says that there is none */
    uint64_t column;
    uint64_t isa; /* this and the next one are 0 where is_wide is false */
    uint64_t discriminator;
    bool is_stmt;
    bool is_wide; /* isa and discriminator are told: by a section always, by a table in version 2 */
};

/* The positions from (low, low_op) up to (high, high_op), which is not among them. */
struct linetab_span {
    uint64_t low, low_op, high, high_op;
    struct linetab_answer answer;
};

/* A unit: its offset in the section, and how many files it lists. */
struct linetab_unit {
    uint64_t offset, files;
};

/* What was found. The fields that aren't named beside a number are 0.
 *
 *   0  yes. Of linetab_check_within with is_partial: index is the number of addresses at which both answer, and value that of
 *      those at which the section does. offset and other_offset are 0, or 1 where 2^64 has to be added to index and to value
 *  25  no unit stands where the next one has to: offset is that of the field at fault, and detail says what is wrong:
 *      1 truncated, 2 reserved length, 3 version (index), 4 address size (index), 5 segment selector size (index),
 *      6 header length, 7 max_ops of 0, 8 line_range of 0, 9 opcode_base of 0, 10 standard opcode (index) with a wrong
 *      number of operands (value), 11 unknown form (index), 12 entries without a format, 13 number too large,
 *      14 length of an extended operation
 *  26  the program of the unit (offset) doesn't run: detail is 22 where the operation (index) leads to a line out of range,
 *      23 where the last sequence has no end
 *  27  the unit (offset) has a format that isn't usable, of directories (detail 0) or of files (1)
 *  28  the unit (offset) has a path without a text, of a directory (detail 0) or a file (1), the entry (index)
 *  29  the unit (offset) has a file (index) whose directory isn't there
 *  30  the unit (offset) has a row (index) that names a file (value) which isn't there
 *  31  the unit (offset) has a row (index) whose position is below that of the row before it
 *  32  two sequences hold one position (address, op): unit (offset) and sequence (index), and those of the other one
 *  33  memory ran out: nothing was judged
 *  36  the table has no header of any version
 *  37  the table has a record (index) with a wrong number of fields
 *  38  the table has a record (index) with a column (value) that holds no number of its kind
 *  39  the table has a record (index) whose span is empty, or begins below the end of the one before it
 *  40  table and section answer differently at (address, op), and at no position below: by_table is what the table
 *      answers, where table_answers is true, and by_section what the section answers, where section_answers is true.
 *      Where path_version is 3 or 4, the table is one by path, of that version: the answers have a line and, in version 3,
 *      a column, and index and value are how many bytes the path has that the table answers, and that of the section
 */
struct linetab_verdict {
    uint32_t number;
    uint32_t detail;
    uint64_t offset, index, value;
    uint64_t other_offset, other_index;
    uint64_t address, op;
    bool table_answers, section_answers;
    uint32_t path_version; /* where answers are by path; it lies where nothing was before */
    struct linetab_answer by_table, by_section;
};

/* Judges the section, and puts the spans of a good one into the first places of spans, in order, where len is enough for all of
 * them. It answers how many they are. Where len is less, what spans then holds isn't said: ask again with more room. Where
 * the section isn't good or memory ran out, it answers 0, and the verdict says why. */
size_t linetab_verify(const struct linetab_section *section, struct linetab_span *spans, size_t len,
                      struct linetab_verdict *verdict);

/* Whether the spans, as linetab_verify gave them, answer something at the position, and what; if not, answer stays as it was.
 * The address is one of the image as linked: of a running program, subtract where it was loaded. op is 0, but for machines
 * whose instructions hold several operations, where it is the index of one. It takes no memory and calls nothing, so it may
 * run in a signal handler. It always returns, whatever the spans are, and compares the position with at most as many of them
 * as len has binary digits. */
bool linetab_lookup(const struct linetab_span *spans, size_t len, uint64_t address, uint64_t op,
                    struct linetab_answer *answer);

/* Fills the whole of index with an index over the spans, for linetab_lookup_indexed. It may have any length: the longer it is,
 * the fewer spans a lookup reads, up to about one entry for each span, which is a twentieth of their memory. It takes no
 * memory and calls nothing. */
void linetab_index(const struct linetab_span *spans, size_t len, uint32_t *index, size_t index_len);

/* The same as linetab_lookup gives of spans in order, whatever index holds, and sooner where it is the index of these spans
 * and their addresses lie close together. Where it isn't, as that of other spans, it takes at most about twice the time of
 * linetab_lookup. It may run in a signal handler, and always returns, as that does. */
bool linetab_lookup_indexed(const struct linetab_span *spans, size_t len, const uint32_t *index, size_t index_len,
                            uint64_t address, uint64_t op, struct linetab_answer *answer);

/* Judges the section, and puts its units into the first places of units, where len is enough for all of them. It answers how many
 * they are. */
size_t linetab_units(const struct linetab_section *section, struct linetab_unit *units, size_t len,
                     struct linetab_verdict *verdict);

/* Judges the section, and answers whether the unit at this offset has the file: where it answers false and the verdict is
 * yes, there is no such unit or file. Its path of *count bytes is put into the first bytes of path, where len is enough for all of
 * them. No zero byte stands after it. The bytes of one unit, up to the offset of the next one, are a section too, which is
 * judged sooner than all of them: the unit stands at 0 there. */
bool linetab_path(const struct linetab_section *section, uint64_t unit, uint64_t file, uint8_t *path, size_t len,
                  size_t *count, struct linetab_verdict *verdict);

/* Judges the section, and puts its address table into the first bytes of room, where len is enough for all of it, in version 2
 * where is_wide is true, else in version 1. It answers how many bytes the table has. */
size_t linetab_table(const struct linetab_section *section, bool is_wide, uint8_t *room, size_t len,
                     struct linetab_verdict *verdict);

/* Whether the address table, of any of the four versions, answers as the section does, at every position. */
void linetab_check(const struct linetab_section *section, const uint8_t *table, size_t len,
                   struct linetab_verdict *verdict);

/* The same verdict, and where path_version isn't 0, the paths of the two answers: that of the table is put into the first bytes of
 * by_table, where by_table_len is enough for all of its verdict->index bytes, and that of the section into the first bytes of
 * by_section, where by_section_len is enough for all of its verdict->value bytes. No zero byte stands after them. A room that is
 * too short stays as it was: ask again with more, or go without. */
void linetab_check_paths(const struct linetab_section *section, const uint8_t *table, size_t len, uint8_t *by_table,
                         size_t by_table_len, uint8_t *by_section, size_t by_section_len, struct linetab_verdict *verdict);

/* The same where is_partial is false. Where it is true, only the positions count at which the table answers: 40 is then the least
 * of them at which the section answers otherwise or not at all. */
void linetab_check_within(const struct linetab_section *section, const uint8_t *table, size_t len, bool is_partial,
                          uint8_t *by_table, size_t by_table_len, uint8_t *by_section, size_t by_section_len,
                          struct linetab_verdict *verdict);

/* ---- The heap, which the host defines: linetab_heap.c does over malloc. Lookups and linetab_index
 * need none of it.
 *
 * A block has size bytes, which may be 0, at an address that align divides, which itself divides 16. Where there is no
 * memory, is_there is false and at is any address but null. rattle_realloc keeps the first kept bytes of the block and
 * may move it; where it fails, the block stays as it was. rattle_dealloc is given what one of the two gave. */
struct rattle_block {
    bool is_there;
    void *at;
};
struct rattle_block rattle_alloc(size_t size, size_t align);
struct rattle_block rattle_realloc(void *at, size_t kept, size_t size, size_t align);
void rattle_dealloc(void *at);

#ifdef __cplusplus
}
#define LINETAB_PINNED(what) static_assert(what, #what)
#else
#define LINETAB_PINNED(what) _Static_assert(what, #what)
#endif

/* The layouts, which no version with the same major number changes. */
LINETAB_PINNED(sizeof(size_t) == 8 && sizeof(void *) == 8);
LINETAB_PINNED(sizeof(bool) == 1);
LINETAB_PINNED(sizeof(uint32_t) == 4);
LINETAB_PINNED(sizeof(struct linetab_section) == 64);
LINETAB_PINNED(offsetof(struct linetab_section, dead) == 48);
LINETAB_PINNED(offsetof(struct linetab_section, has_dead) == 56);
LINETAB_PINNED(offsetof(struct linetab_section, skip_copies) == 58);
LINETAB_PINNED(sizeof(struct linetab_answer) == 56);
LINETAB_PINNED(offsetof(struct linetab_answer, is_stmt) == 48);
LINETAB_PINNED(offsetof(struct linetab_answer, is_wide) == 49);
LINETAB_PINNED(sizeof(struct linetab_span) == 88);
LINETAB_PINNED(offsetof(struct linetab_span, answer) == 32);
LINETAB_PINNED(sizeof(struct linetab_unit) == 16);
LINETAB_PINNED(sizeof(struct linetab_verdict) == 184);
LINETAB_PINNED(offsetof(struct linetab_verdict, offset) == 8);
LINETAB_PINNED(offsetof(struct linetab_verdict, table_answers) == 64);
LINETAB_PINNED(offsetof(struct linetab_verdict, path_version) == 68);
LINETAB_PINNED(offsetof(struct linetab_verdict, by_table) == 72);
LINETAB_PINNED(offsetof(struct linetab_verdict, by_section) == 128);

#endif
