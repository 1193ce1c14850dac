/* Lookups by linetab_lookup, for bench/embedding: the spans of a good section are made once, and then addresses are looked up.
 *   lookups prepare SECTION LINE_STR STR RANGES ADDRESSES COUNT [--dead ADDRESS] [--skip-copies]
 * writes to RANGES, for each stretch of addresses of one unit, the unit's offset and the first and the last address but one
 * after it, and to ADDRESSES so many addresses, each within a span picked at random; all as 64-bit numbers.
 *   lookups alone|indexed SECTION LINE_STR STR ADDRESSES [--dead ADDRESS] [--skip-copies]
 * prints the nanoseconds of processor time of a lookup, over PASSES passes after one that isn't counted, and a sum of the answers;
 * `alone` calls linetab_lookup, and `indexed` linetab_lookup_indexed, by an index with an entry for each span. */
#include "linetab.h"
#include <inttypes.h>
#include <stdio.h>
#include <stdlib.h>
#include <string.h>
#include <time.h>

#define PASSES 5

static void fail(const char *why, const char *what) {
    fprintf(stderr, "lookups: %s%s\n", why, what);
    exit(2);
}

static void *read_file(const char *name, size_t *len) {
    FILE *file = fopen(name, "rb");
    long size = -1;
    if (file != NULL && fseek(file, 0, SEEK_END) == 0)
        size = ftell(file);
    void *bytes = size < 0 ? NULL : malloc((size_t)size + 1);
    if (bytes == NULL || fseek(file, 0, SEEK_SET) != 0 || fread(bytes, 1, (size_t)size, file) != (size_t)size)
        fail("cannot read ", name);
    fclose(file);
    *len = (size_t)size;
    return bytes;
}

static FILE *made(const char *name) {
    FILE *file = fopen(name, "wb");
    if (file == NULL)
        fail("cannot write ", name);
    return file;
}

static struct linetab_span *spans_of(const struct linetab_section *section, size_t *count) {
    struct linetab_verdict verdict;
    struct linetab_span none[1];
    *count = linetab_verify(section, none, 0, &verdict);
    struct linetab_span *spans = malloc((*count + 1) * sizeof *spans);
    if (spans == NULL || linetab_verify(section, spans, *count, &verdict) != *count || verdict.number != 0 || *count == 0)
        fail("no good section with spans", "");
    return spans;
}

/* The next number of a sequence that looks random (Marsaglia's xorshift64). */
static uint64_t next_number(uint64_t *state) {
    *state ^= *state << 13;
    *state ^= *state >> 7;
    *state ^= *state << 17;
    return *state;
}

static void prepare(const struct linetab_span *spans, size_t count, char **words) {
    FILE *ranges = made(words[0]), *addresses = made(words[1]);
    for (size_t i = 0, first = 0; i < count; i++) {
        bool goes_on = i + 1 < count && spans[i + 1].low == spans[i].high && spans[i + 1].answer.unit == spans[i].answer.unit;
        uint64_t range[3] = {spans[i].answer.unit, spans[first].low, spans[i].high};
        if (!goes_on) {
            fwrite(range, sizeof range, 1, ranges);
            first = i + 1;
        }
    }
    uint64_t state = 88172645463325252u;
    for (unsigned long i = strtoul(words[2], NULL, 10); i > 0; i--) {
        const struct linetab_span *span = &spans[next_number(&state) % count];
        uint64_t address = span->low + next_number(&state) % (span->high > span->low ? span->high - span->low : 1);
        fwrite(&address, sizeof address, 1, addresses);
    }
    fclose(ranges);
    fclose(addresses);
}

/* The index of the spans, with an entry for each. */
static uint32_t *index_of(const struct linetab_span *spans, size_t count) {
    uint32_t *index = malloc(count * sizeof *index);
    if (index == NULL)
        fail("out of memory", "");
    linetab_index(spans, count, index, count);
    return index;
}

/* The answers to all addresses, by the index where there is one. */
static uint64_t pass(const struct linetab_span *spans, size_t count, const uint32_t *index, const uint64_t *addresses, size_t asked) {
    uint64_t sum = 0;
    for (size_t i = 0; i < asked; i++) {
        struct linetab_answer answer;
        if (index != NULL ? linetab_lookup_indexed(spans, count, index, count, addresses[i], 0, &answer)
                          : linetab_lookup(spans, count, addresses[i], 0, &answer))
            sum += answer.line * 31 + answer.column;
    }
    return sum;
}

static double processor_seconds(void) {
    struct timespec at;
    clock_gettime(CLOCK_PROCESS_CPUTIME_ID, &at);
    return (double)at.tv_sec + (double)at.tv_nsec / 1e9;
}

int main(int argc, char **argv) {
    bool prepares = argc > 1 && strcmp(argv[1], "prepare") == 0;
    int after = prepares ? 8 : 6;
    if (argc < after)
        fail("see its first lines", "");
    struct linetab_section section = {0};
    section.line = read_file(argv[2], &section.line_len);
    section.line_str = read_file(argv[3], &section.line_str_len);
    section.str = read_file(argv[4], &section.str_len);
    for (int i = after; i < argc; i++) {
        section.skip_copies |= strcmp(argv[i], "--skip-copies") == 0;
        if (strcmp(argv[i], "--dead") == 0 && i + 1 < argc)
            section.has_dead = true, section.dead = strtoull(argv[i + 1], NULL, 16);
    }
    size_t count, size;
    struct linetab_span *spans = spans_of(&section, &count);
    if (prepares) {
        prepare(spans, count, argv + 5);
        printf("%zu\n", count);
        return 0;
    }
    uint32_t *index = strcmp(argv[1], "indexed") == 0 ? index_of(spans, count) : NULL;
    uint64_t *addresses = read_file(argv[5], &size), sum = pass(spans, count, index, addresses, size / 8);
    double start = processor_seconds();
    for (int i = 0; i < PASSES; i++)
        if (pass(spans, count, index, addresses, size / 8) != sum)
            fail("the answers differ", "");
    printf("%.2f %" PRIu64 "\n", (processor_seconds() - start) * 1e9 / PASSES / (double)(size / 8), sum);
    return 0;
}
