/* Looks addresses up in a section, and prints each answer as `linetab lookup` does:
 * lookup SECTION LINE_STR [--str FILE] [--dead ADDRESS] [--big] [--skip-copies] ADDRESS.. */
#include "linetab.h"
#include <inttypes.h>
#include <stdio.h>
#include <stdlib.h>
#include <string.h>

/* Reads a whole file. */
static uint8_t *read_file(const char *name, size_t *len) {
    FILE *file = fopen(name, "rb");
    long size = -1;
    if (file != NULL && fseek(file, 0, SEEK_END) == 0)
        size = ftell(file);
    uint8_t *bytes = size < 0 ? NULL : malloc((size_t)size + 1);
    if (bytes == NULL || fseek(file, 0, SEEK_SET) != 0 || fread(bytes, 1, (size_t)size, file) != (size_t)size) {
        fprintf(stderr, "lookup: cannot read %s\n", name);
        exit(3);
    }
    fclose(file);
    *len = (size_t)size;
    return bytes;
}

static void *room_for(size_t count, size_t size) {
    void *room = calloc(count + 1, size);
    if (room == NULL) {
        fprintf(stderr, "lookup: out of memory\n");
        exit(4);
    }
    return room;
}

/* Ends the program where the answer isn't yes. */
static void stop_unless_yes(const struct linetab_verdict *verdict) {
    if (verdict->number == 0)
        return;
    printf("no %" PRIu32 " detail %" PRIu32 " offset 0x%" PRIx64 "\n", verdict->number, verdict->detail, verdict->offset);
    exit(verdict->number == 33 ? 4 : 1);
}

static void print_path(const struct linetab_section *section, const struct linetab_answer *answer) {
    struct linetab_verdict verdict;
    uint8_t small[1];
    size_t len;
    if (!linetab_path(section, answer->unit, answer->file, small, 0, &len, &verdict))
        stop_unless_yes(&verdict);
    uint8_t *path = room_for(len, 1);
    linetab_path(section, answer->unit, answer->file, path, len, &len, &verdict);
    stop_unless_yes(&verdict);
    printf(" path \"%.*s\"\n", (int)len, (const char *)path);
    free(path);
}

/* Sets what the options say, and gives the place after them. */
static int read_options(struct linetab_section *section, int argc, char **argv, int i) {
    for (; i < argc && strncmp(argv[i], "--", 2) == 0; i++) {
        if (strcmp(argv[i], "--big") == 0)
            section->is_big = true;
        else if (strcmp(argv[i], "--skip-copies") == 0)
            section->skip_copies = true;
        else if (strcmp(argv[i], "--dead") == 0 && i + 1 < argc)
            section->has_dead = true, section->dead = strtoull(argv[++i], NULL, 16);
        else if (strcmp(argv[i], "--str") == 0 && i + 1 < argc)
            section->str = read_file(argv[++i], &section->str_len);
        else
            exit(2);
    }
    return i;
}

int main(int argc, char **argv) {
    if (argc < 3) {
        fprintf(stderr, "usage: lookup SECTION LINE_STR [--str FILE] [--dead ADDRESS] [--big] [--skip-copies] ADDRESS..\n");
        return 2;
    }
    if (linetab_version() != LINETAB_VERSION) {
        fprintf(stderr, "lookup: the library has another version than its header\n");
        return 3;
    }
    static const uint8_t none_there[1];
    struct linetab_section section = {.str = none_there};
    uint8_t *line = read_file(argv[1], &section.line_len);
    uint8_t *line_str = read_file(argv[2], &section.line_str_len);
    section.line = line;
    section.line_str = line_str;
    int first = read_options(&section, argc, argv, 3);

    struct linetab_verdict verdict;
    struct linetab_span none[1];
    size_t count = linetab_verify(&section, none, 0, &verdict);
    stop_unless_yes(&verdict);
    struct linetab_span *spans = room_for(count, sizeof *spans);
    count = linetab_verify(&section, spans, count, &verdict);
    stop_unless_yes(&verdict);

    for (int i = first; i < argc; i++) {
        uint64_t address = strtoull(argv[i], NULL, 16);
        struct linetab_answer answer;
        if (linetab_lookup(spans, count, address, 0, &answer)) {
            printf("0x%" PRIx64 ",0 unit %" PRIu64 " file %" PRIu64, address, answer.unit, answer.file);
            printf(" line %" PRIu64 " column %" PRIu64 " stmt %d", answer.line, answer.column, answer.is_stmt);
            print_path(&section, &answer);
        } else {
            printf("0x%" PRIx64 ",0 none\n", address);
        }
    }
    free(spans);
    if (section.str != none_there)
        free((void *)section.str);
    free(line_str);
    free(line);
    return 0;
}
