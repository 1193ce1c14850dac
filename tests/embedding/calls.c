/* Each call of the library, printed as the program prints what it answers:
 *   calls verify|check TABLE|part TABLE|table|wide|files|lookup ADDRESS:OP SECTION [--line-str FILE] [--str FILE]
 *         [--dead ADDRESS] [--big] [--skip-copies]
 * `part` is `check --partial`.
 * It ends as the program does: 0 for yes, 1 for no, 4 where memory ran out. */
#include "linetab.h"
#include <inttypes.h>
#include <stdio.h>
#include <stdlib.h>
#include <string.h>

#define NONE ((const uint8_t *)"")

static const char *const reasons[] = {
    "", "truncated", "reserved length", "version %" PRIu64, "address size %" PRIu64, "segment selector size %" PRIu64,
    "header length", "zero operations per instruction", "zero line range", "zero opcode base",
    "length %2$" PRIu64 " of standard opcode %1$" PRIu64, "form 0x%" PRIx64, "entries without a format",
    "number too large", "extended length",
};

static uint8_t *read_file(const char *name, size_t *len) {
    FILE *file = strcmp(name, "-") == 0 ? stdin : fopen(name, "rb");
    size_t room = 1 << 16, have = 0, got;
    uint8_t *bytes = malloc(room);
    if (file == NULL || bytes == NULL)
        exit(3);
    while ((got = fread(bytes + have, 1, room - have, file)) > 0) {
        have += got;
        if (have == room && (bytes = realloc(bytes, room *= 2)) == NULL)
            exit(3);
    }
    if (file != stdin)
        fclose(file);
    *len = have;
    return bytes;
}

/* Where the table is one by path, its path and that of the section, which stand in the verdict as lengths. */
static uint8_t *paths[2];

static void print_answer(const struct linetab_verdict *v, bool is_there, const struct linetab_answer *answer, int which) {
    if (!is_there) {
        printf("none");
        return;
    }
    if (v->path_version != 0) {
        printf("\"%.*s\",%" PRIu64, (int)(which == 0 ? v->index : v->value), (const char *)paths[which], answer->line);
        if (v->path_version == 3)
            printf(",%" PRIu64, answer->column);
        return;
    }
    printf("%" PRIu64 ",%" PRIu64 ",%" PRIu64 ",%" PRIu64 ",%d", answer->unit, answer->file, answer->line, answer->column, answer->is_stmt);
    if (answer->is_wide)
        printf(",%" PRIu64 ",%" PRIu64, answer->isa, answer->discriminator);
}

/* How much a table answers that is right wherever it answers. Nothing here answers at 2^64 addresses. */
static void print_coverage(const struct linetab_verdict *v) {
    printf("answers %" PRIu64 " of %" PRIu64 "\n", v->index, v->value);
    if (v->offset != 0 || v->other_offset != 0)
        printf("and 2^64 more\n");
}

/* Prints a verdict as the line that the program prints, and gives the exit status. */
static int print_verdict(const struct linetab_verdict *v) {
    switch (v->number) {
    case 0: printf("yes"); break;
    case 25:
        printf("no 25 malformed at 0x%" PRIx64 ": ", v->offset);
        printf(reasons[v->detail], v->index, v->value);
        break;
    case 26:
        printf("no 26 run unit 0x%" PRIx64 ": ", v->offset);
        if (v->detail == 22)
            printf("line out of range at operation %" PRIu64, v->index);
        else
            printf(v->detail == 23 ? "open sequence" : "?");
        break;
    case 27: printf("no 27 entry format unit 0x%" PRIx64 " %s", v->offset, v->detail ? "files" : "directories"); break;
    case 28:
        printf("no 28 string outside unit 0x%" PRIx64 " %s entry %" PRIu64, v->offset, v->detail ? "files" : "directories", v->index);
        break;
    case 29: printf("no 29 directory number unit 0x%" PRIx64 " file %" PRIu64, v->offset, v->index); break;
    case 30: printf("no 30 file number unit 0x%" PRIx64 " row %" PRIu64 " file %" PRIu64, v->offset, v->index, v->value); break;
    case 31: printf("no 31 falls unit 0x%" PRIx64 " row %" PRIu64, v->offset, v->index); break;
    case 32:
        printf("no 32 overlap 0x%" PRIx64 ":%" PRIu64 " 0x%" PRIx64 ":%" PRIu64, v->offset, v->index, v->other_offset, v->other_index);
        printf(" at 0x%" PRIx64 ",%" PRIu64, v->address, v->op);
        break;
    case 33: fprintf(stderr, "out of memory\n"); return 4;
    case 36: printf("no 36 table header"); break;
    case 37: printf("no 37 table fields record %" PRIu64, v->index); break;
    case 38: printf("no 38 table number record %" PRIu64 " column %" PRIu64, v->index, v->value); break;
    case 39: printf("no 39 table order record %" PRIu64, v->index); break;
    case 40:
        printf("no 40 differs at 0x%" PRIx64 ",%" PRIu64 " table ", v->address, v->op);
        print_answer(v, v->table_answers, &v->by_table, 0);
        printf(" section ");
        print_answer(v, v->section_answers, &v->by_section, 1);
        break;
    default: printf("%" PRIu32 "?", v->number);
    }
    printf("\n");
    return v->number != 0;
}

/* Prints the text where a byte of a room that was filled with question marks is another one now. */
static void tell_touched(const char *text, const void *room, size_t size) {
    for (size_t i = 0; i < size; i++)
        if (((const uint8_t *)room)[i] != '?') {
            printf("%s", text);
            return;
        }
}

/* A path as the program prints it where nothing in it is quoted. Where its room is too short by one byte, nothing is put there. */
static int print_path(const struct linetab_section *section, uint64_t unit, uint64_t file, const char *before, const char *after) {
    struct linetab_verdict verdict;
    uint8_t one[1];
    size_t len;
    bool is_there = linetab_path(section, unit, file, one, 0, &len, &verdict);
    if (verdict.number != 0)
        return print_verdict(&verdict);
    if (!is_there)
        return 0;
    uint8_t *path = memset(malloc(len + 1), '?', len + 1);
    if (len != 0) {
        linetab_path(section, unit, file, path, len - 1, &len, &verdict);
        tell_touched("a path that is cut: ", path, len);
    }
    is_there = linetab_path(section, unit, file, path, len, &len, &verdict);
    if (is_there)
        printf("%s%.*s%s", before, (int)len, (const char *)path, after);
    free(path);
    return is_there ? 0 : print_verdict(&verdict);
}

static int print_lookup(const struct linetab_section *section, const char *word) {
    struct linetab_verdict verdict;
    struct linetab_span one[1];
    size_t count = linetab_verify(section, one, 0, &verdict), again;
    struct linetab_span *spans = malloc((count + 1) * sizeof *spans);
    again = linetab_verify(section, spans, count, &verdict);
    if (verdict.number != 0 || again != count) {
        free(spans);
        return print_verdict(&verdict);
    }
    char *after;
    uint64_t address = strtoull(word, &after, 16), op = *after == ':' ? strtoull(after + 1, NULL, 10) : 0;
    struct linetab_answer answer;
    int status = 0;
    printf("0x%" PRIx64 ",%" PRIu64 " ", address, op);
    if (linetab_lookup(spans, count, address, op, &answer)) {
        printf("unit %" PRIu64 " file %" PRIu64 " line %" PRIu64, answer.unit, answer.file, answer.line);
        printf(" column %" PRIu64 " stmt %d", answer.column, answer.is_stmt);
        status = print_path(section, answer.unit, answer.file, " path \"", "\"");
        printf("\n");
    } else {
        printf("none\n");
    }
    free(spans);
    return status;
}

static int print_table(const struct linetab_section *section, bool is_wide) {
    struct linetab_verdict verdict;
    uint8_t one[1];
    size_t count = linetab_table(section, is_wide, one, 0, &verdict), again;
    uint8_t *table = memset(malloc(count + 1), '?', count + 1);
    if (count != 0) {
        linetab_table(section, is_wide, table, count - 1, &verdict);
        tell_touched("a table that is cut: ", table, count);
    }
    again = linetab_table(section, is_wide, table, count, &verdict);
    if (verdict.number == 0 && again == count)
        fwrite(table, 1, count, stdout);
    free(table);
    return verdict.number != 0 ? print_verdict(&verdict) : again != count;
}

static int print_files(const struct linetab_section *section) {
    struct linetab_verdict verdict;
    struct linetab_unit one[1];
    size_t count = linetab_units(section, one, 0, &verdict), again;
    struct linetab_unit *units = memset(malloc((count + 1) * sizeof *units), '?', (count + 1) * sizeof *units);
    if (count != 0) {
        linetab_units(section, units, count - 1, &verdict);
        tell_touched("units that are cut: ", units, count * sizeof *units);
    }
    again = linetab_units(section, units, count, &verdict);
    int status = verdict.number != 0 ? print_verdict(&verdict) : again != count;
    for (size_t i = 0; status == 0 && i < count; i++) {
        /* The bytes of one unit are a section too, in which it stands at 0: every other path is asked of that. */
        struct linetab_section alone = *section;
        alone.line += units[i].offset;
        alone.line_len = (i + 1 < count ? units[i + 1].offset : section->line_len) - units[i].offset;
        for (uint64_t file = 0; status == 0 && file < units[i].files; file++) {
            bool of_unit = file % 2 != 0;
            printf("%" PRIu64 ",%" PRIu64 ",", units[i].offset, file);
            status = print_path(of_unit ? &alone : section, of_unit ? 0 : units[i].offset, file, "", "\n");
        }
    }
    free(units);
    return status;
}

/* A check, with the rooms for two paths. Without is_partial it is the same by both calls. */
static void check_paths(const struct linetab_section *section, const uint8_t *table, size_t len, bool is_partial, const size_t *lengths,
                        struct linetab_verdict *verdict) {
    linetab_check_within(section, table, len, is_partial, paths[0], lengths[0], paths[1], lengths[1], verdict);
    if (!is_partial) {
        struct linetab_verdict again;
        linetab_check_paths(section, table, len, paths[0], lengths[0], paths[1], lengths[1], &again);
        if (memcmp(&again, verdict, sizeof again) != 0)
            printf("another verdict without a scope: ");
    }
}

static int print_check(const struct linetab_section *section, const char *name, bool is_partial) {
    struct linetab_verdict verdict;
    size_t len;
    uint8_t *table = read_file(name, &len), none[2];
    if (is_partial)
        linetab_check_within(section, table, len, true, none, 0, none + 1, 0, &verdict);
    else
        linetab_check(section, table, len, &verdict);
    if (verdict.path_version != 0) {
        struct linetab_verdict again;
        size_t lengths[2] = {verdict.index, verdict.value};
        for (int which = 0; which < 2; which++)
            paths[which] = memset(malloc(lengths[which] + 1), '?', lengths[which] + 1);
        /* Where a room is too short by one byte, nothing is put there, and the other one is filled. */
        for (int which = 0; which < 2; which++)
            if (lengths[which] != 0) {
                size_t rooms[2] = {lengths[0] - (which == 0), lengths[1] - (which == 1)};
                check_paths(section, table, len, is_partial, rooms, &again);
                tell_touched("a path that is cut: ", paths[which], lengths[which]);
                memset(paths[1 - which], '?', lengths[1 - which]);
            }
        check_paths(section, table, len, is_partial, lengths, &again);
        if (memcmp(&again, &verdict, offsetof(struct linetab_verdict, by_table)) != 0 || again.by_table.line != verdict.by_table.line)
            printf("another verdict with paths: ");
    }
    free(table);
    int status = print_verdict(&verdict);
    if (is_partial && verdict.number == 0)
        print_coverage(&verdict);
    free(paths[0]);
    free(paths[1]);
    return status;
}

int main(int argc, char **argv) {
    struct linetab_section section = {NONE, 0, NONE, 0, NONE, 0, 0, false, false, false};
    const char *word = argc > 1 ? argv[1] : "", *more = NULL;
    int at = 2, status = 2;
    if (at < argc && (strcmp(word, "check") == 0 || strcmp(word, "part") == 0 || strcmp(word, "lookup") == 0))
        more = argv[at++];
    if (at >= argc || linetab_version() != LINETAB_VERSION)
        return 2;
    uint8_t *line = read_file(argv[at], &section.line_len), *line_str = NULL, *str = NULL;
    section.line = line;
    for (at++; at < argc; at++) {
        if (strcmp(argv[at], "--big") == 0)
            section.is_big = true;
        else if (strcmp(argv[at], "--skip-copies") == 0)
            section.skip_copies = true;
        else if (strcmp(argv[at], "--dead") == 0 && at + 1 < argc)
            section.has_dead = true, section.dead = strtoull(argv[++at], NULL, 16);
        else if (strcmp(argv[at], "--line-str") == 0 && at + 1 < argc)
            section.line_str = line_str = read_file(argv[++at], &section.line_str_len);
        else if (strcmp(argv[at], "--str") == 0 && at + 1 < argc)
            section.str = str = read_file(argv[++at], &section.str_len);
        else
            return 2;
    }
    struct linetab_verdict verdict;
    struct linetab_span one[1];
    if (strcmp(word, "verify") == 0) {
        linetab_verify(&section, one, 0, &verdict);
        status = print_verdict(&verdict);
    } else if (strcmp(word, "check") == 0 || strcmp(word, "part") == 0)
        status = print_check(&section, more, word[0] == 'p');
    else if (strcmp(word, "lookup") == 0)
        status = print_lookup(&section, more);
    else if (strcmp(word, "table") == 0 || strcmp(word, "wide") == 0)
        status = print_table(&section, word[0] == 'w');
    else if (strcmp(word, "files") == 0)
        status = print_files(&section);
    free(str);
    free(line_str);
    free(line);
    return status;
}
