/* What docs/EMBEDDING.md shows, which the script puts into page.h, run: page SECTION LINE_STR ADDRESS */
#include "page.h"
#include <string.h>

static const uint8_t *read_file(const char *name, size_t *len) {
    static uint8_t rooms[2][1 << 16];
    static int used;
    FILE *file = fopen(name, "rb");
    if (file == NULL)
        exit(3);
    *len = fread(rooms[used], 1, sizeof rooms[used], file);
    fclose(file);
    return rooms[used++];
}

int main(int argc, char **argv) {
    struct linetab_section section;
    if (argc != 4)
        return 2;
    memset(&section, 0, sizeof section);
    section.line = read_file(argv[1], &section.line_len);
    section.line_str = read_file(argv[2], &section.line_str_len);
    section.str = (const uint8_t *)"";
    return print_line(&section, strtoull(argv[3], NULL, 16));
}
