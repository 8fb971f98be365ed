/* What the benchmarks of both forms of text share. */
#include "forms.h"
#include <stdio.h>
#include <string.h>

/* --- the contenders --- */

static const struct form *running;

static uint64_t measure_by_proved(const uint8_t *in, size_t size, uint8_t *out, size_t room) {
    (void)out;
    (void)room;
    return running->proved.measure(in, size);
}

static uint64_t measure_by_plain(const uint8_t *in, size_t size, uint8_t *out, size_t room) {
    (void)out;
    (void)room;
    return running->plain.measure(in, size);
}

const struct row measure_rows[2] = {
    {"proved", measure_by_proved},
    {"plain C", measure_by_plain},
};

uint64_t encode_by_proved(const uint8_t *in, size_t size, uint8_t *out, size_t room) {
    return running->proved.encode(in, size, out, room, 0);
}

uint64_t encode_by_plain(const uint8_t *in, size_t size, uint8_t *out, size_t room) {
    return running->plain.encode(in, size, out, room, 0);
}

/* --- the comparison --- */

/* The longest input that is compared; a text of escapes is three times as long, and some room is left behind it. */
enum { LONGEST = 80, PAGE = 3 * LONGEST + 40 };

static void report(const char *function, const uint8_t *input, size_t size, size_t room, size_t at, uint64_t got, uint64_t want) {
    if (differs()) {
        printf("DIFFERS %s %s: room %zu, at %zu, proved %lld, plain C %lld, input ", running->name, function, room, at, (long long)got, (long long)want);
        print_octets(input, size);
    }
}

/* Two buffers alike, of octets that change from one comparison to the next: a constant would hide a store of that octet. */
static void lend(uint8_t *one, uint8_t *other) {
    uint8_t first = (uint8_t)draw(256);
    for (size_t i = 0; i < PAGE; i++) {
        one[i] = (uint8_t)(first + 37 * i);
    }
    memcpy(other, one, PAGE);
    comparisons++;
}

static void compare_measure(const uint8_t *text, size_t size) {
    uint64_t got = running->proved.measure(text, size);
    uint64_t want = running->plain.measure(text, size);
    comparisons++;
    if (got != want) {
        report("measure", text, size, 0, 0, got, want);
    }
}

static void compare_decode(const uint8_t *text, size_t size, size_t room) {
    uint8_t a[PAGE];
    uint8_t b[PAGE];
    lend(a, b);
    uint64_t got = running->proved.decode(text, size, a, room);
    uint64_t want = running->plain.decode(text, size, b, room);
    if (got != want || memcmp(a, b, PAGE) != 0) {
        report("decode", text, size, room, 0, got, want);
    }
}

static void compare_encode(const uint8_t *bytes, size_t size, size_t room, size_t at) {
    uint8_t a[PAGE];
    uint8_t b[PAGE];
    lend(a, b);
    uint64_t got = running->proved.encode(bytes, size, a, room, at);
    uint64_t want = running->plain.encode(bytes, size, b, room, at);
    if (got != want || memcmp(a, b, PAGE) != 0) {
        report("encode", bytes, size, room, at, got, want);
    }
}

/* Rooms from some octets less than what is needed to some more. */
static size_t around_start(size_t need, size_t reach) {
    return need < reach ? 0 : need - reach;
}

static void compare_text(const uint8_t *text, size_t size, size_t reach) {
    compare_measure(text, size);
    uint64_t length = running->plain.measure(text, size);
    size_t need = length == MALFORMED ? size : (size_t)length;
    for (size_t room = around_start(need, reach); room <= need + reach; room++) {
        compare_decode(text, size, room);
    }
    compare_decode(text, size, 0);
}

static void compare_bytes(const uint8_t *bytes, size_t size, size_t reach) {
    uint8_t page[PAGE];
    size_t need = (size_t)running->plain.encode(bytes, size, page, PAGE, 0);
    for (size_t at = 0; at < 4; at++) {
        for (size_t room = around_start(at + need, reach); room <= at + need + reach; room++) {
            compare_encode(bytes, size, room, at);
        }
    }
    /* an index behind the buffer, and one to which nothing can be added */
    compare_encode(bytes, size, need, need + 1);
    compare_encode(bytes, size, PAGE, SIZE_MAX);
}

static void damage(uint8_t *text, size_t size) {
    for (size_t times = 1 + draw(4); times > 0; times--) {
        uint8_t mark = (uint8_t)running->marks[draw(strlen(running->marks))];
        text[draw(size)] = draw(2) ? mark : (uint8_t)draw(256);
    }
}

static void compare_texts_of(size_t size) {
    uint8_t text[LONGEST + 4];
    /* a letter of base64 and a digit of xtext: who reads past the end takes it for part of the text */
    memset(text, 'A', sizeof text);
    for (int round = 0; round < 40; round++) {
        running->some_text(size, text);
        compare_text(text, size, LONGEST);
    }
    if (size == 0) {
        return;
    }
    for (int round = 0; round < 1000; round++) {
        running->some_text(size, text);
        damage(text, size);
        compare_text(text, size, 2);
    }
    /* every octet at every place */
    running->some_text(size, text);
    for (size_t place = 0; place < size; place++) {
        uint8_t kept = text[place];
        for (int octet = 0; octet < 256; octet++) {
            text[place] = (uint8_t)octet;
            compare_text(text, size, 1);
        }
        text[place] = kept;
    }
}

static void compare_bytes_of(size_t size) {
    uint8_t bytes[LONGEST];
    for (int round = 0; round < 40; round++) {
        running->some_bytes(size, bytes);
        compare_bytes(bytes, size, 8);
    }
    for (size_t place = 0; place < size; place++) {
        uint8_t kept = bytes[place];
        for (int octet = 0; octet < 256; octet++) {
            bytes[place] = (uint8_t)octet;
            compare_bytes(bytes, size, 1);
        }
        bytes[place] = kept;
    }
}

static void compare(void) {
    for (size_t size = 0; size <= LONGEST; size++) {
        compare_texts_of(size);
        compare_bytes_of(size);
    }
}

static const size_t letters[] = {4, 16, 64, 512, 12284};

int form_main(const struct form *form, int argc, char **argv) {
    const struct program program = {form->name, form->tables, form->table_count, letters, COUNT(letters), compare};
    running = form;
    return harness_main(&program, argc, argv);
}
