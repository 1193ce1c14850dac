/* Lookups by an index beside those without: indexes SECTION LINE_STR
 * Of the section's spans, and of made ones, at each border of each span and beside it, whatever the index holds: that of these
 * spans in each length, that of other spans, zeros, ones, numbers that look random. */
#include "linetab.h"
#include <stdio.h>
#include <stdlib.h>
#include <string.h>

enum { SPANS = 64 };

static unsigned long lookups;

static uint8_t *read_file(const char *name, size_t *len) {
    FILE *file = fopen(name, "rb");
    uint8_t *bytes = malloc(1 << 20);
    if (file == NULL || bytes == NULL)
        exit(3);
    *len = fread(bytes, 1, 1 << 20, file);
    fclose(file);
    return bytes;
}

static uint64_t next_number(void) {
    static uint64_t state = 88172645463325252u;
    state ^= state << 13;
    state ^= state >> 7;
    return state ^= state << 17;
}

static void same_at(const struct linetab_span *spans, size_t len, const uint32_t *index, size_t index_len, uint64_t address, uint64_t op) {
    struct linetab_answer plain, indexed;
    memset(&plain, 7, sizeof plain);
    memset(&indexed, 7, sizeof indexed);
    bool found = linetab_lookup(spans, len, address, op, &plain);
    lookups++;
    if (linetab_lookup_indexed(spans, len, index, index_len, address, op, &indexed) != found || memcmp(&plain, &indexed, 50) != 0) {
        printf("%zu spans, %zu entries: not alike at %llu,%llu\n", len, index_len, (unsigned long long)address, (unsigned long long)op);
        exit(1);
    }
}

/* At each border, one before it and one after it. */
static void same_everywhere(const struct linetab_span *spans, size_t len, const uint32_t *index, size_t index_len) {
    for (size_t i = 0; i < 2 * len + 2; i++) {
        const struct linetab_span *span = spans + i / 2;
        uint64_t address = i >= 2 * len ? UINT64_MAX * (i % 2) : i % 2 == 0 ? span->low : span->high;
        uint64_t op = i >= 2 * len ? 0 : i % 2 == 0 ? span->low_op : span->high_op;
        for (int beside = -1; beside <= 1; beside++) {
            same_at(spans, len, index, index_len, address + (uint64_t)beside, op);
            same_at(spans, len, index, index_len, address, op + (uint64_t)beside);
        }
    }
}

/* With indexes of one length, of these spans and of others. Blocks of the length are taken, so that a sanitizer sees what is read. */
static void same_by_each(const struct linetab_span *spans, size_t len, size_t index_len) {
    uint32_t *index = malloc(index_len * sizeof *index + (index_len == 0));
    if (index == NULL)
        exit(3);
    linetab_index(spans, len, index, index_len);
    same_everywhere(spans, len, index, index_len);
    linetab_index(spans + len / 2, len - len / 2, index, index_len);
    same_everywhere(spans, len, index, index_len);
    linetab_index(spans, len / 2, index, index_len);
    same_everywhere(spans, len, index, index_len);
    memset(index, 0, index_len * sizeof *index);
    same_everywhere(spans, len, index, index_len);
    memset(index, 0xff, index_len * sizeof *index);
    same_everywhere(spans, len, index, index_len);
    for (size_t i = 0; i < index_len; i++)
        index[i] = (uint32_t)(next_number() % (len + 2));
    same_everywhere(spans, len, index, index_len);
    free(index);
}

/* The spans from one on, in a block of their own. */
static void same(const struct linetab_span *from, size_t len) {
    struct linetab_span *spans = malloc(len * sizeof *spans + (len == 0));
    if (spans == NULL)
        exit(3);
    memcpy(spans, from, len * sizeof *spans);
    for (size_t index_len = 0; index_len < 2 * len + 8; index_len++)
        same_by_each(spans, len, index_len);
    same_by_each(spans, len, 5000);
    free(spans);
}

/* Spans in order, some touching, some within an instruction, the last one up to the end of all addresses. */
static void make(struct linetab_span *spans, size_t len, uint64_t step) {
    uint64_t address = next_number() % 3, op = 0;
    for (size_t i = 0; i < len; i++) {
        struct linetab_span *span = spans + i;
        memset(span, 0, sizeof *span);
        if (next_number() % 3 == 0)
            address += 1 + next_number() % step, op = 0;
        span->low = address, span->low_op = op;
        if (next_number() % 4 == 0)
            op += 1 + next_number() % 2;
        else
            address += 1 + next_number() % step, op = 0;
        span->high = address, span->high_op = op;
        span->answer.line = i + 1;
    }
    if (len > 0)
        spans[len - 1].high = UINT64_MAX, spans[len - 1].high_op = UINT64_MAX;
}

int main(int argc, char **argv) {
    struct linetab_section section = {0};
    struct linetab_verdict verdict;
    struct linetab_span spans[SPANS];
    if (argc != 3)
        return 2;
    uint8_t *line = read_file(argv[1], &section.line_len), *line_str = read_file(argv[2], &section.line_str_len);
    section.line = line;
    section.line_str = line_str;
    section.str = (const uint8_t *)"";
    size_t count = linetab_verify(&section, spans, SPANS, &verdict);
    if (verdict.number != 0 || count == 0 || count > SPANS)
        return 1;
    same(spans, count);
    for (size_t len = 0; len < 20; len++)
        for (int digits = 1; digits < 59; digits += 8)
            make(spans, len, (uint64_t)1 << digits), same(spans, len);
    printf(lookups > 1000000 ? "all alike\n" : "few lookups\n");
    free(line_str);
    free(line);
    return 0;
}
