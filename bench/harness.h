/* What all benchmarks share: the tables of time and of instructions, the count of comparisons, and the three modes. A
   program (base64.c, xtext.c, lines.c, calls.c) says what its functions are and makes its inputs. */
#ifndef HARNESS_H
#define HARNESS_H
#include <stdbool.h>
#include <stddef.h>
#include <stdint.h>

/* The answers that are no length, as in crates/benchface. */
#define MALFORMED UINT64_MAX
#define SHORT (UINT64_MAX - 1)

/* One contender of a table. All have one shape, so that each pays the same for being called. */
struct row {
    const char *name;
    uint64_t (*call)(const uint8_t *in, size_t size, uint8_t *out, size_t room);
};

/* A function on one kind of input. The first row is the proved one, the second plain C.
   make writes the input that belongs to a length, and gives its size, or NO_INPUT where the kind has none of that length; what
   choice means is the program's. */
#define NO_INPUT SIZE_MAX

struct table {
    const char *function;
    const char *kind;
    const struct row *rows;
    size_t row_count;
    size_t (*make)(size_t length, size_t choice, uint8_t *in);
    size_t choice;
};

struct program {
    const char *name;
    const struct table *tables;
    size_t table_count;
    const size_t *lengths;
    size_t length_count;
    /* compares the proved functions with plain C */
    void (*compare)(void);
};

#define COUNT(array) (sizeof(array) / sizeof *(array))

/* A number below limit, the same ones in each run after the same seed, whatever the C library. */
void seed(uint32_t start);
size_t draw(size_t limit);

/* Each comparison is counted, and each difference; the first few of these are to be printed. */
extern long comparisons;
bool differs(void);
void print_octets(const uint8_t *octets, size_t size);

int harness_main(const struct program *program, int argc, char **argv);
#endif
