/* Lines near the grammar, drawn at random: good ones of every kind, nearly good ones, near the limits, and rubbish. */
#ifndef GENERATE_H
#define GENERATE_H
#include "check.h"

/* The names that mechanisms have in generated lines; the last ones are bad. */
enum { MECHANISM_NAMES = 14, GOOD_MECHANISM_NAMES = 11 };
extern const char *const mechanism_names[MECHANISM_NAMES];

/* A line that suits the connection in this slot, more often than not. It lasts until the next one is drawn. */
struct text some_line(const uint8_t *slot);

/* Data that suit a verdict, more often than not. */
struct text some_data(uint64_t verdict);
#endif
