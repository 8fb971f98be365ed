/* "open connections' numbers differ .., waiting tickets likewise", with numbers that are hard to tell apart by a hash: they share
   buckets of the one that is used (host/model.c), up to all. What is tested and the model must take the same images, and those where
   all differ alone. */
#include "both.h"
#include <string.h>

/* The buckets after the first are digits of nine bits of the quotient's product, the first one lowest. */
enum { FIRST_BUCKETS = 509, DIGIT_BITS = 9, ALL_DIGITS = 4 };

static uint64_t digits_of(uint64_t quotient) {
    return (quotient & UINT32_MAX) * 2654435769 >> 23;
}

/* The next quotient that has the same first digits, so many. One more adds less than 317 to the digits, so those between can be passed
   over; from 2^32 on they are as from 0 on. */
static uint64_t next_alike(uint64_t quotient, size_t digits) {
    uint64_t mask = ((uint64_t)1 << DIGIT_BITS * digits) - 1;
    uint64_t wanted = digits_of(quotient) & mask;
    do {
        uint64_t missing = (wanted - digits_of(quotient)) & mask;
        uint64_t step = missing < 317 ? 1 : missing / 317;
        uint64_t to_the_end = UINT32_MAX - (quotient & UINT32_MAX) + 1;
        quotient += step < to_the_end ? step : to_the_end;
    } while ((digits_of(quotient) & mask) != wanted);
    return quotient;
}

static uint64_t alike[UMBRELNIC_MOST_CONNECTIONS];

/* 64 numbers with one remainder, and so one first bucket, whose quotients begin with the same digits. */
static void make_alike(uint64_t remainder, uint64_t quotient, size_t digits) {
    for (size_t i = 0; i < COUNT(alike); i++) {
        alike[i] = quotient * FIRST_BUCKETS + remainder;
        quotient = next_alike(quotient, digits);
    }
}

/* --- images --- */

static uint8_t written[UMBRELNIC_IMAGE_OCTETS];

static uint8_t *slot_in(uint8_t *image, size_t index) {
    return image + SLOTS + index * SLOT_OCTETS;
}

static void expect_answered(struct call call) {
    EXPECT_NUMBER(both(&call).refusal, 0);
}

/* 64 connections wait, with these numbers and tickets. */
static void make_full_server(void) {
    expect_answered(usual(MAKE, 0, 0, NO_OCTETS));
    expect_answered(usual(ADD, 1, 0, T("PLAIN")));
    for (uint64_t i = 0; i < COUNT(alike); i++) {
        expect_answered(usual(OPEN, UMBRELNIC_POP3, 1, NO_OCTETS));
        expect_answered(usual(LINE, i, 0, T("AUTH PLAIN =")));
    }
    for (size_t i = 0; i < COUNT(alike); i++) {
        put_number(slot_in(both_image, i) + NUMBER, alike[i]);
        put_number(slot_in(both_image, i) + TICKET, alike[i]);
    }
    put_number(both_image + NEXT_CONNECTION, UINT64_MAX);
    put_number(both_image + NEXT_TICKET, UINT64_MAX);
    memcpy(written, both_image, sizeof written);
}

/* A call that changes no image says whether this one is taken. */
static void expect_taken(bool taken) {
    struct call probe = usual(CLOSE, UINT64_MAX, 0, NO_OCTETS);
    size_t differences = both_differences;
    EXPECT_NUMBER(both(&probe).refusal, taken ? UMBRELNIC_NO_CONNECTION : UMBRELNIC_NOT_TAKEN);
    EXPECT_NUMBER(both_differences, differences);
}

/* --- the tests --- */

/* Each in the place of each other one. */
static void expect_told_apart(size_t field) {
    for (size_t i = 0; i < COUNT(alike); i++) {
        for (size_t other = 0; other < COUNT(alike); other++) {
            memcpy(both_image, written, sizeof written);
            put_number(slot_in(both_image, i) + field, alike[other]);
            expect_taken(other == i);
        }
    }
}

static void expect_digits_told_apart(size_t digits) {
    make_alike(491, 1000, digits);
    make_full_server();
    expect_told_apart(NUMBER);
    expect_told_apart(TICKET);
}

static void first_bucket_alike(void) {
    expect_digits_told_apart(0);
}

static void one_digit_alike(void) {
    expect_digits_told_apart(1);
}

static void two_digits_alike(void) {
    expect_digits_told_apart(2);
}

static void three_digits_alike(void) {
    expect_digits_told_apart(3);
}

/* The quotients are equal modulo 2^32. */
static void all_buckets_alike(void) {
    expect_digits_told_apart(ALL_DIGITS);
    EXPECT_NUMBER(alike[63] / FIRST_BUCKETS, 1000 + ((uint64_t)63 << 32));
}

/* 0 is a real number and a real ticket, and the zeros of a slot that has none are not: a slot without one, whichever, beside a first,
   middle or last slot that has 0. */
static void zero_beside_slots_that_have_none(void) {
    static const size_t zero_at[] = {0, 31, 63};
    make_alike(0, 0, ALL_DIGITS);
    make_full_server();
    for (size_t k = 0; k < COUNT(zero_at); k++) {
        for (size_t i = 0; i < COUNT(alike); i++) {
            uint8_t *none = slot_in(both_image, i);
            memcpy(both_image, written, sizeof written);
            put_number(slot_in(both_image, 0) + NUMBER, alike[zero_at[k]]);
            put_number(slot_in(both_image, 0) + TICKET, alike[zero_at[k]]);
            put_number(slot_in(both_image, zero_at[k]) + NUMBER, 0);
            put_number(slot_in(both_image, zero_at[k]) + TICKET, 0);
            expect_taken(true);
            none[PHASE] = IDLE;
            put_number(none + TICKET, 0);
            expect_taken(true);
            memset(none, 0, SLOT_OCTETS);
            expect_taken(true);
        }
    }
}

int main(void) {
    static const struct test tests[] = {
        TEST(first_bucket_alike),
        TEST(one_digit_alike),
        TEST(two_digits_alike),
        TEST(three_digits_alike),
        TEST(all_buckets_alike),
        TEST(zero_beside_slots_that_have_none),
    };
    return RUN_TESTS("numbers", tests);
}
