/* What the benchmarks of both forms of text share: the contenders measure and encode, and the comparison of answers and whole
   buffers with plain C. A form (base64.c, xtext.c) says what its functions are and makes its texts. */
#ifndef FORMS_H
#define FORMS_H
#include "harness.h"

/* The three functions of a form, proved or plain. */
struct functions {
    uint64_t (*measure)(const uint8_t *text, size_t size);
    uint64_t (*decode)(const uint8_t *text, size_t size, uint8_t *out, size_t room);
    uint64_t (*encode)(const uint8_t *bytes, size_t size, uint8_t *out, size_t room, size_t at);
};

/* A length in its tables is one in letters of text. */
struct form {
    const char *name;
    struct functions proved;
    struct functions plain;
    const struct table *tables;
    size_t table_count;
    /* for the comparison: some text of just this size, well formed where the form has such a text */
    void (*some_text)(size_t size, uint8_t *text);
    /* and some octets to encode */
    void (*some_bytes)(size_t size, uint8_t *bytes);
    /* octets at which the form turns: damage is drawn from these as often as from all octets */
    const char *marks;
};

/* measure and encode of the form that runs, in the shape of a row. (decode has it already.) */
extern const struct row measure_rows[2];
uint64_t encode_by_proved(const uint8_t *in, size_t size, uint8_t *out, size_t room);
uint64_t encode_by_plain(const uint8_t *in, size_t size, uint8_t *out, size_t room);

int form_main(const struct form *form, int argc, char **argv);
#endif
