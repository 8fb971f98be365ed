/* The harness. A program is run as
     NAME check    compares the proved functions with plain C
     NAME time     a line for each number: function, kind, length, row, ratio to plain C, nanoseconds
     NAME insn     under callgrind: a dump for each number, labelled function, kind, length, row
   run.sh prints the tables. */
#define _POSIX_C_SOURCE 200809L
#include "harness.h"
#include <stdio.h>
#include <stdlib.h>
#include <string.h>
#include <time.h>
#ifdef HAVE_VALGRIND
#include <valgrind/callgrind.h>
#else
#define CALLGRIND_ZERO_STATS
#define CALLGRIND_DUMP_STATS_AT(label) (void)(label)
#endif

static uint32_t state;

void seed(uint32_t start) {
    state = start;
}

size_t draw(size_t limit) {
    state = state * 1664525u + 1013904223u;
    /* the low bits of such a generator repeat soon */
    return (state >> 8) % limit;
}

/* --- the tables --- */

/* Every input of a table fits, and the encoded form of its octets too. */
enum { BUFFER = 40000, MOST_ROUNDS = 1000, MOST_ROWS = 8, CALLS = 10 };

static uint8_t in[BUFFER];
static uint8_t out[BUFFER];
static volatile uint64_t sink;

/* The proved one must answer and write what plain C does; a peer must write the octets of a text that plain C takes,
   or it did other work. (What a peer answers is not compared: OpenSSL counts the padding.) */
static bool does_the_same(const struct table *table, const struct row *row, size_t size) {
    static uint8_t expected[BUFFER];
    memset(expected, 0, BUFFER);
    memset(out, 0, BUFFER);
    uint64_t want = table->rows[1].call(in, size, expected, BUFFER);
    uint64_t got = row->call(in, size, out, BUFFER);
    if (row == table->rows) {
        return got == want && memcmp(out, expected, BUFFER) == 0;
    }
    return want >= SHORT || memcmp(out, expected, want) == 0;
}

static bool all_do_the_same(const struct table *table, size_t length, size_t size) {
    bool same = true;
    for (size_t r = 0; r < table->row_count; r++) {
        if (!does_the_same(table, &table->rows[r], size)) {
            fprintf(stderr, "DIFFERS %s, %s, length %zu: %s\n", table->function, table->kind, length, table->rows[r].name);
            same = false;
        }
    }
    return same;
}

static double nanoseconds(void) {
    struct timespec t;
    clock_gettime(CLOCK_MONOTONIC, &t);
    return (double)t.tv_sec * 1e9 + (double)t.tv_nsec;
}

static double time_of_a_call(const struct row *row, size_t size, size_t calls) {
    sink = row->call(in, size, out, BUFFER);
    double start = nanoseconds();
    for (size_t c = 0; c < calls; c++) {
        sink = row->call(in, size, out, BUFFER);
    }
    return (nanoseconds() - start) / (double)calls;
}

static int by_size(const void *a, const void *b) {
    double x = *(const double *)a;
    double y = *(const double *)b;
    return (x > y) - (x < y);
}

static double median(double *values, size_t count) {
    qsort(values, count, sizeof *values, by_size);
    return values[count / 2];
}

static size_t rounds_wanted(void) {
    const char *text = getenv("ROUNDS");
    long rounds = text ? atol(text) : 60;
    if (rounds < 1) {
        return 1;
    }
    return rounds < MOST_ROUNDS ? (size_t)rounds : MOST_ROUNDS;
}

/* Every row is timed in every round, one after the other, and a ratio is taken within its round: what else the
   machine does slows neighbours alike. */
static void time_table(const struct table *table, size_t length, size_t size) {
    static double times[MOST_ROWS][MOST_ROUNDS];
    static double ratios[MOST_ROUNDS];
    size_t rounds = rounds_wanted();
    /* about as long a measurement for each input */
    size_t calls = 200000 / (size + 20) + 1;
    for (size_t k = 0; k < rounds; k++) {
        for (size_t r = 0; r < table->row_count; r++) {
            times[r][k] = time_of_a_call(&table->rows[r], size, calls);
        }
    }
    for (size_t r = 0; r < table->row_count; r++) {
        for (size_t k = 0; k < rounds; k++) {
            ratios[k] = times[r][k] / times[1][k];
        }
        double ratio = median(ratios, rounds);
        memcpy(ratios, times[r], rounds * sizeof *ratios);
        double time = median(ratios, rounds);
        printf("%s\t%s\t%zu\t%s\t%.3f\t%.1f\n", table->function, table->kind, length, table->rows[r].name, ratio, time);
    }
}

/* One dump of callgrind for each row; run.sh divides its total by CALLS. */
static void count_table(const struct table *table, size_t length, size_t size) {
    for (size_t r = 0; r < table->row_count; r++) {
        const struct row *row = &table->rows[r];
        char label[200];
        snprintf(label, sizeof label, "@%s@%s@%zu@%s@%d@", table->function, table->kind, length, row->name, CALLS);
        CALLGRIND_ZERO_STATS;
        for (int c = 0; c < CALLS; c++) {
            sink = row->call(in, size, out, BUFFER);
        }
        CALLGRIND_DUMP_STATS_AT(label);
    }
}

typedef void measurement(const struct table *table, size_t length, size_t size);

static bool one_table(const struct table *table, size_t length, measurement *measured) {
    /* each input is the same in every run */
    seed(7);
    size_t size = table->make(length, table->choice, in);
    if (size == NO_INPUT) {
        return true;
    }
    if (!all_do_the_same(table, length, size)) {
        return false;
    }
    measured(table, length, size);
    return true;
}

static int all_tables(const struct program *program, measurement *measured) {
    int status = 0;
    for (size_t t = 0; t < program->table_count; t++) {
        for (size_t l = 0; l < program->length_count; l++) {
            if (!one_table(&program->tables[t], program->lengths[l], measured)) {
                status = 1;
            }
        }
    }
    return status;
}

/* --- the comparison --- */

long comparisons;
static long differences;

bool differs(void) {
    differences++;
    return differences <= 10;
}

void print_octets(const uint8_t *octets, size_t size) {
    for (size_t i = 0; i < size; i++) {
        printf("%02x", octets[i]);
    }
    printf("\n");
}

static int check(const struct program *program) {
    seed(3);
    program->compare();
    printf("%s check: %ld comparisons with plain C, %ld differences\n", program->name, comparisons, differences);
    return differences != 0;
}

int harness_main(const struct program *program, int argc, char **argv) {
    if (argc == 2 && strcmp(argv[1], "check") == 0) {
        return check(program);
    }
    if (argc == 2 && strcmp(argv[1], "time") == 0) {
        return all_tables(program, time_table);
    }
    if (argc == 2 && strcmp(argv[1], "insn") == 0) {
        return all_tables(program, count_table);
    }
    fprintf(stderr, "usage: %s check | time | insn\n", program->name);
    return 2;
}
