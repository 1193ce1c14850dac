/* Eight threads at once, each with all calls over the same section and spans: threads SECTION LINE_STR TABLE
 * And a lookup in the handler of a signal. */
#define _POSIX_C_SOURCE 200809L
#include "linetab.h"
#include <pthread.h>
#include <signal.h>
#include <stdio.h>
#include <stdlib.h>
#include <string.h>

enum { THREADS = 8, ROUNDS = 200, SPANS = 64 };

static struct linetab_section section;
static uint8_t *table;
static size_t table_len, count;
static struct linetab_span spans[SPANS];
static volatile sig_atomic_t answered;

static uint8_t *read_file(const char *name, size_t *len) {
    FILE *file = fopen(name, "rb");
    uint8_t *bytes = malloc(1 << 20);
    if (file == NULL || bytes == NULL)
        exit(3);
    *len = fread(bytes, 1, 1 << 20, file);
    fclose(file);
    return bytes;
}

static void handle(int signal) {
    struct linetab_answer answer;
    (void)signal;
    answered = linetab_lookup(spans, count, spans[0].low, spans[0].low_op, &answer) && memcmp(&answer.line, &spans[0].answer.line, 8) == 0;
}

/* Gives null where each round went as the first. */
static void *run(void *unused) {
    (void)unused;
    for (int round = 0; round < ROUNDS; round++) {
        struct linetab_verdict verdict;
        struct linetab_span mine[SPANS];
        if (linetab_verify(&section, mine, SPANS, &verdict) != count || verdict.number != 0)
            return "verify";
        for (size_t i = 0; i < count; i++) {
            struct linetab_answer answer;
            if (!linetab_lookup(spans, count, mine[i].low, mine[i].low_op, &answer) || answer.line != mine[i].answer.line)
                return "lookup";
        }
        linetab_check(&section, table, table_len, &verdict);
        if (verdict.number != 0)
            return "check";
    }
    return NULL;
}

int main(int argc, char **argv) {
    if (argc != 4)
        return 2;
    struct linetab_verdict verdict;
    uint8_t *line = read_file(argv[1], &section.line_len), *line_str = read_file(argv[2], &section.line_str_len);
    table = read_file(argv[3], &table_len);
    section.line = line;
    section.line_str = line_str;
    section.str = (const uint8_t *)"";
    count = linetab_verify(&section, spans, SPANS, &verdict);
    if (verdict.number != 0 || count == 0 || count > SPANS)
        return 1;

    pthread_t threads[THREADS];
    int status = 0;
    for (int i = 0; i < THREADS; i++)
        if (pthread_create(&threads[i], NULL, run, NULL) != 0)
            return 3;
    for (int i = 0; i < THREADS; i++) {
        void *wrong;
        pthread_join(threads[i], &wrong);
        if (wrong != NULL) {
            printf("thread %d: %s\n", i, (const char *)wrong);
            status = 1;
        }
    }
    struct sigaction action;
    memset(&action, 0, sizeof action);
    action.sa_handler = handle;
    sigaction(SIGUSR1, &action, NULL);
    raise(SIGUSR1);
    if (!answered)
        status = 1;
    printf(status == 0 ? "all alike\n" : "not alike\n");
    free(table);
    free(line_str);
    free(line);
    return status;
}
