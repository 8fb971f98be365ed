/* Base64 (RFC 4648 section 4) by a table, as strict as the proved one: a length that is a multiple of four, "=" only at
   the end, the unused bits zero, no other octet. */
#include "plain.h"

#define X 255 /* no letter; any value above 63 shows in an OR of four values */

static const uint8_t value[256] = {
    X, X, X, X, X, X, X, X, X, X, X, X, X, X, X, X,
    X, X, X, X, X, X, X, X, X, X, X, X, X, X, X, X,
    X, X, X, X, X, X, X, X, X, X, X, 62, X, X, X, 63,
    52, 53, 54, 55, 56, 57, 58, 59, 60, 61, X, X, X, X, X, X,
    X, 0, 1, 2, 3, 4, 5, 6, 7, 8, 9, 10, 11, 12, 13, 14,
    15, 16, 17, 18, 19, 20, 21, 22, 23, 24, 25, X, X, X, X, X,
    X, 26, 27, 28, 29, 30, 31, 32, 33, 34, 35, 36, 37, 38, 39, 40,
    41, 42, 43, 44, 45, 46, 47, 48, 49, 50, 51, X, X, X, X, X,
    X, X, X, X, X, X, X, X, X, X, X, X, X, X, X, X,
    X, X, X, X, X, X, X, X, X, X, X, X, X, X, X, X,
    X, X, X, X, X, X, X, X, X, X, X, X, X, X, X, X,
    X, X, X, X, X, X, X, X, X, X, X, X, X, X, X, X,
    X, X, X, X, X, X, X, X, X, X, X, X, X, X, X, X,
    X, X, X, X, X, X, X, X, X, X, X, X, X, X, X, X,
    X, X, X, X, X, X, X, X, X, X, X, X, X, X, X, X,
    X, X, X, X, X, X, X, X, X, X, X, X, X, X, X, X,
};

static const uint8_t alphabet[] = "ABCDEFGHIJKLMNOPQRSTUVWXYZabcdefghijklmnopqrstuvwxyz0123456789+/";

/* Whether the last four letters end a text, and how many octets they stand for. */
static uint64_t last_length(const uint8_t *text) {
    unsigned p = value[text[0]];
    unsigned q = value[text[1]];
    unsigned r = value[text[2]];
    unsigned s = value[text[3]];
    if ((p | q) > 63) {
        return MALFORMED;
    }
    if (text[2] == '=') {
        return text[3] == '=' && (q & 15) == 0 ? 1 : MALFORMED;
    }
    if (r > 63) {
        return MALFORMED;
    }
    if (text[3] == '=') {
        return (r & 3) == 0 ? 2 : MALFORMED;
    }
    return s > 63 ? MALFORMED : 3;
}

static void put_last(const uint8_t *text, uint64_t length, uint8_t *out) {
    unsigned p = value[text[0]];
    unsigned q = value[text[1]];
    unsigned r = value[text[2]];
    unsigned s = value[text[3]];
    out[0] = (uint8_t)(p << 2 | q >> 4);
    if (length > 1) {
        out[1] = (uint8_t)(q << 4 | r >> 2);
    }
    if (length > 2) {
        out[2] = (uint8_t)(r << 6 | s);
    }
}

uint64_t plain_base64_measure(const uint8_t *text, size_t size) {
    if (size % 4 != 0) {
        return MALFORMED;
    }
    if (size == 0) {
        return 0;
    }
    size_t i;
    for (i = 0; i + 4 < size; i += 4) {
        if ((value[text[i]] | value[text[i + 1]] | value[text[i + 2]] | value[text[i + 3]]) > 63) {
            return MALFORMED;
        }
    }
    uint64_t last = last_length(text + i);
    return last == MALFORMED ? MALFORMED : i / 4 * 3 + last;
}

uint64_t plain_base64_decode(const uint8_t *text, size_t size, uint8_t *out, size_t room) {
    uint64_t length = plain_base64_measure(text, size);
    if (length == MALFORMED) {
        return MALFORMED;
    }
    if (length > room) {
        return SHORT;
    }
    if (size == 0) {
        return 0;
    }
    size_t i;
    size_t n = 0;
    for (i = 0; i + 4 < size; i += 4) {
        uint32_t bits = (uint32_t)value[text[i]] << 18 | (uint32_t)value[text[i + 1]] << 12 | (uint32_t)value[text[i + 2]] << 6 | value[text[i + 3]];
        out[n] = (uint8_t)(bits >> 16);
        out[n + 1] = (uint8_t)(bits >> 8);
        out[n + 2] = (uint8_t)bits;
        n += 3;
    }
    put_last(text + i, length - n, out + n);
    return length;
}

uint64_t plain_base64_decode_one_pass(const uint8_t *text, size_t size, uint8_t *out, size_t room) {
    if (size % 4 != 0) {
        return MALFORMED;
    }
    if (size == 0) {
        return 0;
    }
    size_t need = size / 4 * 3 - (text[size - 1] == '=') - (text[size - 2] == '=');
    if (need > room) {
        return SHORT;
    }
    size_t i;
    size_t n = 0;
    for (i = 0; i + 4 < size; i += 4) {
        uint32_t p = value[text[i]];
        uint32_t q = value[text[i + 1]];
        uint32_t r = value[text[i + 2]];
        uint32_t s = value[text[i + 3]];
        if ((p | q | r | s) > 63) {
            return MALFORMED;
        }
        uint32_t bits = p << 18 | q << 12 | r << 6 | s;
        out[n] = (uint8_t)(bits >> 16);
        out[n + 1] = (uint8_t)(bits >> 8);
        out[n + 2] = (uint8_t)bits;
        n += 3;
    }
    uint64_t last = last_length(text + i);
    if (last == MALFORMED) {
        return MALFORMED;
    }
    put_last(text + i, last, out + n);
    return n + last;
}

uint64_t plain_base64_encode(const uint8_t *bytes, size_t size, uint8_t *out, size_t room, size_t at) {
    size_t need = size / 3 * 4 + (size % 3 != 0 ? 4 : 0);
    if (room < at || room - at < need) {
        return SHORT;
    }
    size_t i;
    size_t n = at;
    for (i = 0; i + 3 <= size; i += 3) {
        uint32_t bits = (uint32_t)bytes[i] << 16 | (uint32_t)bytes[i + 1] << 8 | bytes[i + 2];
        out[n] = alphabet[bits >> 18];
        out[n + 1] = alphabet[bits >> 12 & 63];
        out[n + 2] = alphabet[bits >> 6 & 63];
        out[n + 3] = alphabet[bits & 63];
        n += 4;
    }
    if (size - i == 2) {
        out[n] = alphabet[bytes[i] >> 2];
        out[n + 1] = alphabet[(bytes[i] & 3) << 4 | bytes[i + 1] >> 4];
        out[n + 2] = alphabet[(bytes[i + 1] & 15) << 2];
        out[n + 3] = '=';
        n += 4;
    } else if (size - i == 1) {
        out[n] = alphabet[bytes[i] >> 2];
        out[n + 1] = alphabet[(bytes[i] & 3) << 4];
        out[n + 2] = '=';
        out[n + 3] = '=';
        n += 4;
    }
    return n;
}
