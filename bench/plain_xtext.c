/* Xtext (RFC 4954 section 8) by a table, as strict as the proved one: an octet of 21-2A, 2C-3C or 3E-7E stands for
   itself, "+" and two of 0-9 and A-F for one octet, and nothing else is xtext. */
#include "plain.h"

/* Below 16 the number of a digit; then what else an octet can be. All of these have bit 4, so that an OR of two
   kinds tells whether both are digits. */
enum { C = 16, P = 17, X = 18 }; /* another xchar; "+"; the rest */

static const uint8_t kind[256] = {
    X, X, X, X, X, X, X, X, X, X, X, X, X, X, X, X,
    X, X, X, X, X, X, X, X, X, X, X, X, X, X, X, X,
    X, C, C, C, C, C, C, C, C, C, C, P, C, C, C, C,
    0, 1, 2, 3, 4, 5, 6, 7, 8, 9, C, C, C, X, C, C,
    C, 10, 11, 12, 13, 14, 15, C, C, C, C, C, C, C, C, C,
    C, C, C, C, C, C, C, C, C, C, C, C, C, C, C, C,
    C, C, C, C, C, C, C, C, C, C, C, C, C, C, C, C,
    C, C, C, C, C, C, C, C, C, C, C, C, C, C, C, X,
    X, X, X, X, X, X, X, X, X, X, X, X, X, X, X, X,
    X, X, X, X, X, X, X, X, X, X, X, X, X, X, X, X,
    X, X, X, X, X, X, X, X, X, X, X, X, X, X, X, X,
    X, X, X, X, X, X, X, X, X, X, X, X, X, X, X, X,
    X, X, X, X, X, X, X, X, X, X, X, X, X, X, X, X,
    X, X, X, X, X, X, X, X, X, X, X, X, X, X, X, X,
    X, X, X, X, X, X, X, X, X, X, X, X, X, X, X, X,
    X, X, X, X, X, X, X, X, X, X, X, X, X, X, X, X,
};

uint64_t plain_xtext_measure(const uint8_t *text, size_t size) {
    /* of an escape two letters are more than the octet; counting these leaves less to do at a letter */
    size_t more = 0;
    size_t i = 0;
    while (i < size) {
        unsigned k = kind[text[i]];
        if (k <= C) {
            i += 1;
        } else {
            if (k != P || size - i < 3 || (kind[text[i + 1]] | kind[text[i + 2]]) > 15) {
                return MALFORMED;
            }
            more += 2;
            i += 3;
        }
    }
    return size - more;
}

uint64_t plain_xtext_decode(const uint8_t *text, size_t size, uint8_t *out, size_t room) {
    uint64_t length = plain_xtext_measure(text, size);
    if (length == MALFORMED) {
        return MALFORMED;
    }
    if (length > room) {
        return SHORT;
    }
    size_t n = 0;
    size_t i = 0;
    while (i < size) {
        uint8_t x = text[i];
        if (x == '+') {
            out[n] = (uint8_t)(kind[text[i + 1]] << 4 | kind[text[i + 2]]);
            i += 3;
        } else {
            out[n] = x;
            i += 1;
        }
        n += 1;
    }
    return length;
}

uint64_t plain_xtext_encode(const uint8_t *bytes, size_t size, uint8_t *out, size_t room, size_t at) {
    static const uint8_t digit[] = "0123456789ABCDEF";
    if (room < at || room - at < size) {
        return SHORT;
    }
    size_t escapes = 0;
    for (size_t i = 0; i < size; i++) {
        if (kind[bytes[i]] > C) {
            escapes += 1;
        }
    }
    /* not size + 2 * escapes, which might not fit */
    if ((room - at - size) / 2 < escapes) {
        return SHORT;
    }
    size_t n = at;
    for (size_t i = 0; i < size; i++) {
        uint8_t x = bytes[i];
        if (kind[x] <= C) {
            out[n] = x;
            n += 1;
        } else {
            out[n] = '+';
            out[n + 1] = digit[x >> 4];
            out[n + 2] = digit[x & 15];
            n += 3;
        }
    }
    return n;
}
