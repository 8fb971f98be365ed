/* The proved xtext beside plain C. No library is known that has xtext alone. */
#include "forms.h"
#include "plain.h"

uint64_t bench_xtext_measure(const uint8_t *text, size_t size);
uint64_t bench_xtext_decode(const uint8_t *text, size_t size, uint8_t *out, size_t room);
uint64_t bench_xtext_encode(const uint8_t *bytes, size_t size, uint8_t *out, size_t room, size_t at);

/* --- the contenders, in the shape of a row --- */

static const struct row decode_rows[] = {
    {"proved", bench_xtext_decode},
    {"plain C", plain_xtext_decode},
};

static const struct row encode_rows[] = {
    {"proved", encode_by_proved},
    {"plain C", encode_by_plain},
};

/* --- the inputs --- */

enum { MOST = 20000, NEVER = 0, ALWAYS = 1, ONE_IN_EIGHT = 8 };

static int stands_for_itself(size_t octet) {
    return 0x21 <= octet && octet <= 0x7e && octet != '+' && octet != '=';
}

static uint8_t draw_octet(int itself) {
    size_t octet = draw(256);
    while (stands_for_itself(octet) != itself) {
        octet = draw(256);
    }
    return (uint8_t)octet;
}

/* Octets whose text has so many letters: one in so many is escaped, where three letters are left. Gives how many. */
static size_t make_bytes(size_t letters, size_t one_in, uint8_t *bytes) {
    size_t size = 0;
    while (letters > 0) {
        int itself = letters < 3 || one_in == NEVER || draw(one_in) != 0;
        bytes[size] = draw_octet(itself);
        size += 1;
        letters -= itself ? 1 : 3;
    }
    return size;
}

static size_t make_text(size_t letters, size_t one_in, uint8_t *text) {
    uint8_t bytes[MOST];
    size_t size = make_bytes(letters, one_in, bytes);
    plain_xtext_encode(bytes, size, text, letters, 0);
    return letters;
}

static size_t make_damaged(size_t letters, size_t one_in, uint8_t *text) {
    make_text(letters, one_in, text);
    text[letters - 1] = '=';
    return letters;
}

static const struct table tables[] = {
    {"measure", "plain", measure_rows, 2, make_text, NEVER},
    {"measure", "mixed", measure_rows, 2, make_text, ONE_IN_EIGHT},
    {"measure", "escaped", measure_rows, 2, make_text, ALWAYS},
    {"measure", "damaged last", measure_rows, 2, make_damaged, ONE_IN_EIGHT},
    {"decode", "plain", decode_rows, COUNT(decode_rows), make_text, NEVER},
    {"decode", "mixed", decode_rows, COUNT(decode_rows), make_text, ONE_IN_EIGHT},
    {"decode", "escaped", decode_rows, COUNT(decode_rows), make_text, ALWAYS},
    {"decode", "damaged last", decode_rows, COUNT(decode_rows), make_damaged, ONE_IN_EIGHT},
    {"encode", "plain", encode_rows, COUNT(encode_rows), make_bytes, NEVER},
    {"encode", "mixed", encode_rows, COUNT(encode_rows), make_bytes, ONE_IN_EIGHT},
    {"encode", "escaped", encode_rows, COUNT(encode_rows), make_bytes, ALWAYS},
};

/* One octet in one, two, .. or eight escaped, or none. */
static void some_text(size_t size, uint8_t *text) {
    make_text(size, draw(9), text);
}

static void some_bytes(size_t size, uint8_t *bytes) {
    size_t one_in = 1 + draw(8);
    for (size_t i = 0; i < size; i++) {
        bytes[i] = draw_octet(draw(one_in) != 0);
    }
}

static const struct form xtext = {
    "xtext",
    {bench_xtext_measure, bench_xtext_decode, bench_xtext_encode},
    {plain_xtext_measure, plain_xtext_decode, plain_xtext_encode},
    tables,
    COUNT(tables),
    some_text,
    some_bytes,
    "++=09AFGaf/:@ ~",
};

int main(int argc, char **argv) {
    return form_main(&xtext, argc, argv);
}
