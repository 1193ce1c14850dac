/* A heap that refuses its nth request, and each call with each request refused in turn:
 *   refusing SECTION LINE_STR TABLE TABLE_BY_PATH [--big]
 * A call either tells that memory ran out, or what it tells with ample memory, and leaves no block behind. */
#include "linetab.h"
#include <inttypes.h>
#include <stdio.h>
#include <stdlib.h>
#include <string.h>

static size_t until_refusal, refused, blocks;
static char nothing;

static bool is_refused(void) {
    if (until_refusal == 0 || --until_refusal != 0)
        return false;
    refused++;
    return true;
}

static struct rattle_block block_at(void *at) {
    struct rattle_block block = {at != NULL, at != NULL ? at : &nothing};
    return block;
}

struct rattle_block rattle_alloc(size_t size, size_t align) {
    struct rattle_block block = block_at(is_refused() ? NULL : malloc(size != 0 ? size : align));
    blocks += block.is_there;
    return block;
}

struct rattle_block rattle_realloc(void *at, size_t kept, size_t size, size_t align) {
    (void)kept;
    return block_at(is_refused() ? NULL : realloc(at, size != 0 ? size : align));
}

void rattle_dealloc(void *at) {
    blocks--;
    free(at);
}

static uint8_t *read_file(const char *name, size_t *len) {
    FILE *file = fopen(name, "rb");
    uint8_t *bytes = malloc(1 << 20);
    if (file == NULL || bytes == NULL)
        exit(3);
    *len = fread(bytes, 1, 1 << 20, file);
    fclose(file);
    return bytes;
}

/* All that a call may write. */
struct told {
    size_t count, length;
    struct linetab_verdict verdict;
    struct linetab_span spans[64];
    struct linetab_unit units[4];
    uint8_t bytes[4096], more[4096];
};

struct table {
    uint8_t *bytes;
    size_t len;
};

enum { CALLS = 7 };
static const char *const names[CALLS] = {
    "linetab_verify", "linetab_units", "linetab_path", "linetab_table", "linetab_check", "linetab_check_paths",
    "linetab_check_within",
};

/* The tables are one by number, and one by path that answers otherwise. */
static void call(int which, const struct linetab_section *section, const struct table *tables, struct told *told) {
    memset(told, 0, sizeof *told);
    switch (which) {
    case 0: told->count = linetab_verify(section, told->spans, 64, &told->verdict); break;
    case 1: told->count = linetab_units(section, told->units, 4, &told->verdict); break;
    case 2: told->count = linetab_path(section, 0, 1, told->bytes, sizeof told->bytes, &told->length, &told->verdict); break;
    case 3: told->count = linetab_table(section, true, told->bytes, sizeof told->bytes, &told->verdict); break;
    case 4: linetab_check(section, tables[0].bytes, tables[0].len, &told->verdict); break;
    case 5:
        linetab_check_paths(section, tables[1].bytes, tables[1].len, told->bytes, sizeof told->bytes, told->more, sizeof told->more,
                            &told->verdict);
        break;
    case 6:
        linetab_check_within(section, tables[0].bytes, tables[0].len, true, told->bytes, sizeof told->bytes, told->more,
                             sizeof told->more, &told->verdict);
        break;
    }
}

/* Whether the call stops as it must at each refusal; else says at which it doesn't. */
static bool try_call(int which, const struct linetab_section *section, const struct table *tables) {
    static struct told wanted, told;
    call(which, section, tables, &wanted);
    for (size_t n = 1;; n++) {
        until_refusal = n;
        refused = 0;
        call(which, section, tables, &told);
        until_refusal = 0;
        bool is_stop = told.verdict.number == 33 && told.count == 0;
        if (blocks != 0 || (memcmp(&told, &wanted, sizeof told) != 0 && !(refused != 0 && is_stop))) {
            printf("%s with request %zu refused: verdict %" PRIu32 ", %zu blocks left\n", names[which], n, told.verdict.number, blocks);
            return false;
        }
        if (refused == 0) {
            printf("%s: %s\n", names[which], n > 3 ? "each request" : "too few requests");
            return n > 3;
        }
    }
}

int main(int argc, char **argv) {
    if (argc != 5 && (argc != 6 || strcmp(argv[5], "--big") != 0))
        return 2;
    struct linetab_section section;
    memset(&section, 0, sizeof section);
    struct table tables[2];
    uint8_t *line = read_file(argv[1], &section.line_len), *line_str = read_file(argv[2], &section.line_str_len);
    for (int i = 0; i < 2; i++)
        tables[i].bytes = read_file(argv[3 + i], &tables[i].len);
    section.line = line;
    section.line_str = line_str;
    section.str = (const uint8_t *)"";
    section.is_big = argc == 6;
    int status = 0;
    for (int which = 0; which < CALLS; which++)
        if (!try_call(which, &section, tables))
            status = 1;
    for (int i = 0; i < 2; i++)
        free(tables[i].bytes);
    free(line_str);
    free(line);
    return status;
}
