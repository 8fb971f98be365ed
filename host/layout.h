/* The image's offsets, as docs/IMAGE.md has them. */
#ifndef LAYOUT_H
#define LAYOUT_H
#include <stdint.h>

enum {
    NEXT_CONNECTION = 0,
    NEXT_TICKET = 8,
    SEALED = 16,
    MECHANISM_COUNT = 17,
    MECHANISMS = 18,
    SLOTS = 194,
};

/* in a mechanism, behind its name */
enum { CLIENT_FIRST = 20, NEEDS_PROTECTION = 21, MECHANISM_OCTETS = 22 };

/* in a slot */
enum {
    IS_OPEN = 0,
    NUMBER = 1,
    PROFILE = 9,
    PROTECTED = 10,
    GREETED = 11,
    TRANSACTION = 12,
    PHASE = 13,
    SENT = 14,
    TICKET = 15,
    NAME = 23,
    SLOT_OCTETS = 87,
};

enum { IDLE, SIGNED_IN, AWAITING, WAITING };

/* "the least significant octet first", in a form that compilers know for one load or store */
static inline uint64_t get_number(const uint8_t *octets) {
    return (uint64_t)octets[0] | (uint64_t)octets[1] << 8 | (uint64_t)octets[2] << 16 | (uint64_t)octets[3] << 24 |
           (uint64_t)octets[4] << 32 | (uint64_t)octets[5] << 40 | (uint64_t)octets[6] << 48 | (uint64_t)octets[7] << 56;
}

static inline void put_number(uint8_t *octets, uint64_t number) {
    octets[0] = (uint8_t)number;
    octets[1] = (uint8_t)(number >> 8);
    octets[2] = (uint8_t)(number >> 16);
    octets[3] = (uint8_t)(number >> 24);
    octets[4] = (uint8_t)(number >> 32);
    octets[5] = (uint8_t)(number >> 40);
    octets[6] = (uint8_t)(number >> 48);
    octets[7] = (uint8_t)(number >> 56);
}
#endif
