/* Written by the header and docs/EMBEDDING.md alone: the spans of a section written to a file, as a crash reporter keeps them, read
 * back, and looked up in; its units counted; and its table in version 2 checked: freeze SECTION LINE_STR FILE */
#include "linetab.h"
#include <inttypes.h>
#include <stdio.h>
#include <stdlib.h>

#define ROOM (1 << 20)

static uint8_t *read_file(const char *name, size_t *len) {
    FILE *file = fopen(name, "rb");
    uint8_t *bytes = malloc(ROOM);
    if (file == NULL || bytes == NULL)
        exit(3);
    *len = fread(bytes, 1, ROOM, file);
    fclose(file);
    return bytes;
}

/* Writes the spans, and gives how many they are, or 0. */
static size_t freeze(const struct linetab_section *section, const char *name) {
    struct linetab_verdict verdict;
    struct linetab_span none;
    size_t count = linetab_verify(section, &none, 0, &verdict);
    struct linetab_span *spans = calloc(count + 1, sizeof *spans);
    FILE *file = fopen(name, "wb");
    if (spans == NULL || file == NULL)
        exit(3);
    if (linetab_verify(section, spans, count, &verdict) != count || fwrite(spans, sizeof *spans, count, file) != count)
        count = 0;
    fclose(file);
    free(spans);
    return count;
}

/* The lines of the last addresses of the spans in a file, added up. */
static uint64_t lines_of(const char *name) {
    size_t bytes;
    struct linetab_span *spans = (void *)read_file(name, &bytes);
    uint64_t lines = 0;
    for (size_t i = 0; i < bytes / sizeof *spans; i++) {
        struct linetab_answer answer;
        if (linetab_lookup(spans, bytes / sizeof *spans, spans[i].high - 1, 0, &answer))
            lines += answer.line;
    }
    free(spans);
    return lines;
}

int main(int argc, char **argv) {
    struct linetab_section section = {0};
    struct linetab_verdict verdict;
    struct linetab_unit unit = {0};
    if (argc != 4)
        return 2;
    uint8_t *line = read_file(argv[1], &section.line_len), *line_str = read_file(argv[2], &section.line_str_len);
    section.line = line;
    section.line_str = line_str;
    section.str = (const uint8_t *)"";
    size_t count = freeze(&section, argv[3]), units = linetab_units(&section, &unit, 1, &verdict);
    uint8_t *table = malloc(ROOM);
    size_t len = linetab_table(&section, true, table, ROOM, &verdict);
    linetab_check(&section, table, len, &verdict);
    printf("%zu spans, %" PRIu64 " lines, %zu unit of %" PRIu64 " files, ", count, lines_of(argv[3]), units, unit.files);
    printf("a table of %zu bytes: %" PRIu32 "\n", len, verdict.number);
    free(table);
    free(line);
    free(line_str);
    return 0;
}
