/* Which images are taken: each rule of document 01 and docs/IMAGE.md, with octets on both sides of it. "An image is taken exactly when
   the desk writes it for some desk in which ..", so an octet that means nothing is 0. */
#include "check.h"
#include <string.h>

/* Connections in slots 0 to 4, the rest is free. */
enum { RESTING, NAMED, AWAITS, WAITS, WAITS_TOO, FREE };

static uint8_t written[UMBRELNIC_IMAGE_OCTETS];

/* Numbers from 10, tickets from 20; two mechanisms. The connection in slot i is 10 + i; the next is 15, the next ticket 23. */
static void make_five(void) {
    EXPECT_MADE(10, 20);
    EXPECT_ADDED(T("PLAIN"), 1, 1);
    EXPECT_ADDED(T("CRAM-MD5"), 0, 0);
    EXPECT_NUMBER(open_smtp(), 10 + RESTING);
    EXPECT_NUMBER(open_pop3(), 10 + NAMED);
    EXPECT_NUMBER(open_smtp(), 10 + AWAITS);
    EXPECT_NUMBER(open_pop3(), 10 + WAITS);
    EXPECT_NUMBER(open_pop3(), 10 + WAITS_TOO);
    sign_in(10 + NAMED, T("anna"));
    EXPECT_REPLY(10 + AWAITS, T("AUTH PLAIN"), "334 ");
    EXPECT_QUERY(10 + WAITS, T("AUTH PLAIN Zm9v"), 21, T("foo"));
    EXPECT_START(10 + WAITS_TOO, T("AUTH CRAM-MD5"), 22);
    memcpy(written, lent.image, sizeof written);
}

static void restore(void) {
    memcpy(lent.image, written, sizeof written);
}

/* A call that changes no image says whether this one is taken; where it is not, all calls do. */
static void expect_taken(bool taken) {
    expect_number("close of a number that nobody has", call_close(UINT64_MAX), taken ? 2 : 20);
    if (taken) {
        return;
    }
    expect_number("add", call_add(T("X"), 1, 0), 20);
    expect_number("open", call_open(0, 0).refusal, 20);
    expect_number("line", call_line(10, T("NOOP")).refusal, 20);
    expect_number("verdict", call_verdict(21, UMBRELNIC_REJECTED, NO_OCTETS).refusal, 20);
    expect_number("mail ended", call_mail_ended(10), 20);
    expect_number("who", call_who(10).refusal, 20);
    expect_number("close", call_close(10), 20);
}
#define EXPECT_TAKEN(...) (AT, expect_taken(__VA_ARGS__))

/* The image with one octet altered. */
static void expect_octet(size_t offset, int value, bool taken) {
    restore();
    lent.image[offset] = (uint8_t)value;
    expect_taken(taken);
}
#define EXPECT_OCTET(...) (AT, expect_octet(__VA_ARGS__))

/* ... and with a number altered. */
static void expect_number_at(size_t offset, uint64_t value, bool taken) {
    restore();
    put_number(lent.image + offset, value);
    expect_taken(taken);
}
#define EXPECT_NUMBER_AT(...) (AT, expect_number_at(__VA_ARGS__))

static size_t in_slot(size_t slot, size_t offset) {
    return SLOTS + slot * SLOT_OCTETS + offset;
}

static void as_it_was_written(void) {
    make_five();
    EXPECT_TAKEN(true);
}

static void the_next_numbers(void) {
    make_five();
    EXPECT_NUMBER_AT(NEXT_CONNECTION, 15, true);
    EXPECT_NUMBER_AT(NEXT_CONNECTION, 14, false);
    EXPECT_NUMBER_AT(NEXT_CONNECTION, 0, false);
    EXPECT_NUMBER_AT(NEXT_CONNECTION, 16, true);
    EXPECT_NUMBER_AT(NEXT_CONNECTION, UINT64_MAX, true);
    EXPECT_NUMBER_AT(NEXT_TICKET, 23, true);
    EXPECT_NUMBER_AT(NEXT_TICKET, 22, false);
    EXPECT_NUMBER_AT(NEXT_TICKET, 0, false);
    EXPECT_NUMBER_AT(NEXT_TICKET, UINT64_MAX, true);
}

/* "adding has ended if a connection is open" */
static void sealed(void) {
    make_five();
    EXPECT_OCTET(SEALED, 0, false);
    EXPECT_OCTET(SEALED, 1, true);
    EXPECT_OCTET(SEALED, 2, false);
    EXPECT_OCTET(SEALED, 255, false);
    make_server();
    memcpy(written, lent.image, sizeof written);
    /* with no connection open it may have ended or not */
    EXPECT_OCTET(SEALED, 0, true);
    EXPECT_OCTET(SEALED, 1, true);
    EXPECT_OCTET(SEALED, 2, false);
}

static void the_count_of_mechanisms(void) {
    static const int others[] = {0, 1, 3, 7, 8, 9, 10, 128, 255};
    make_five();
    EXPECT_OCTET(MECHANISM_COUNT, 2, true);
    for (size_t i = 0; i < COUNT(others); i++) {
        EXPECT_OCTET(MECHANISM_COUNT, others[i], false);
    }
    restore();
    memset(lent.image + MECHANISMS + MECHANISM_OCTETS, 0, MECHANISM_OCTETS);
    EXPECT_TAKEN(false);
    lent.image[MECHANISM_COUNT] = 1;
    EXPECT_TAKEN(true);
}

static void names_of_mechanisms(void) {
    static const int good[] = {'A', 'Z', '0', '9', '-', '_'};
    static const int bad[] = {0, 1, ' ', 'a', 'z', '@', '[', '/', ':', '.', '=', 127, 128, 255};
    make_five();
    for (size_t i = 0; i < COUNT(good); i++) {
        EXPECT_OCTET(MECHANISMS, good[i], true);
        EXPECT_OCTET(MECHANISMS + 2, good[i], true);
        /* the first octet of the padding: the name gets longer */
        EXPECT_OCTET(MECHANISMS + 5, good[i], true);
        EXPECT_OCTET(MECHANISMS + 6, good[i], false);
        EXPECT_OCTET(MECHANISMS + 19, good[i], false);
    }
    for (size_t i = 0; i < COUNT(bad); i++) {
        EXPECT_OCTET(MECHANISMS, bad[i], false);
        EXPECT_OCTET(MECHANISMS + 2, bad[i], false);
        EXPECT_OCTET(MECHANISMS + 19, bad[i], bad[i] == 0);
        /* the last octet of the name: it gets shorter */
        EXPECT_OCTET(MECHANISMS + 4, bad[i], bad[i] == 0);
    }
    restore();
    memcpy(lent.image + MECHANISMS, "ABCDEFGHIJKLMNOPQRST", 20);
    EXPECT_TAKEN(true);
}

/* "mechanism names differ" */
static void names_of_mechanisms_differ(void) {
    make_five();
    restore();
    memcpy(lent.image + MECHANISMS, lent.image + MECHANISMS + MECHANISM_OCTETS, 20);
    EXPECT_TAKEN(false);
    lent.image[MECHANISMS + 8] = 'X';
    EXPECT_TAKEN(true);
    make_five();
    memcpy(lent.image + MECHANISMS, "AAAAAAAAAAAAAAAAAAAA", 20);
    for (size_t i = 0; i < 8; i++) {
        memcpy(lent.image + MECHANISMS + i * MECHANISM_OCTETS, lent.image + MECHANISMS, 20);
        lent.image[MECHANISMS + i * MECHANISM_OCTETS + 19] = (uint8_t)('A' + i);
    }
    lent.image[MECHANISM_COUNT] = 8;
    EXPECT_TAKEN(true);
    /* each of them against each */
    memcpy(written, lent.image, sizeof written);
    for (size_t i = 0; i < 8; i++) {
        for (int other = 0; other < 8; other++) {
            EXPECT_OCTET(MECHANISMS + i * MECHANISM_OCTETS + 19, 'A' + other, (size_t)other == i);
        }
    }
}

static void flags_of_mechanisms(void) {
    make_five();
    for (size_t i = 0; i < 2; i++) {
        for (size_t flag = CLIENT_FIRST; flag <= NEEDS_PROTECTION; flag++) {
            size_t offset = MECHANISMS + i * MECHANISM_OCTETS + flag;
            EXPECT_OCTET(offset, 0, true);
            EXPECT_OCTET(offset, 1, true);
            EXPECT_OCTET(offset, 2, false);
            EXPECT_OCTET(offset, 3, false);
            EXPECT_OCTET(offset, 128, false);
            EXPECT_OCTET(offset, 255, false);
        }
    }
}

static void records_that_are_not_there(void) {
    make_five();
    for (size_t offset = MECHANISMS + 2 * MECHANISM_OCTETS; offset < SLOTS; offset++) {
        EXPECT_OCTET(offset, 1, false);
        EXPECT_OCTET(offset, 'A', false);
    }
}

/* "A free slot is 87 zeros", all 59 of them. */
static void free_slots(void) {
    make_five();
    for (size_t offset = in_slot(FREE, 0); offset < UMBRELNIC_IMAGE_OCTETS; offset++) {
        restore();
        lent.image[offset] = (uint8_t)(offset % 255 + 1);
        bool is_open = (offset - SLOTS) % SLOT_OCTETS == IS_OPEN && lent.image[offset] == 1;
        /* an open octet alone is the connection 0, at rest on SMTP */
        EXPECT_NUMBER(call_close(UINT64_MAX), is_open ? 2 : 20);
    }
    EXPECT_OCTET(in_slot(FREE, IS_OPEN), 1, true);
    EXPECT_OCTET(in_slot(63, IS_OPEN), 1, true);
    EXPECT_OCTET(in_slot(63, NAME + 63), 1, false);
    EXPECT_OCTET(in_slot(RESTING, IS_OPEN), 0, false);
    EXPECT_OCTET(in_slot(RESTING, IS_OPEN), 2, false);
    EXPECT_OCTET(in_slot(RESTING, IS_OPEN), 255, false);
}

/* "open connections' numbers differ and are below the next, waiting tickets likewise" */
static void numbers_differ(void) {
    make_five();
    for (uint64_t number = 10; number < 15; number++) {
        EXPECT_NUMBER_AT(in_slot(AWAITS, NUMBER), number, number == 10 + AWAITS);
        EXPECT_NUMBER_AT(in_slot(RESTING, NUMBER), number, number == 10 + RESTING);
        EXPECT_NUMBER_AT(in_slot(WAITS_TOO, NUMBER), number, number == 10 + WAITS_TOO);
    }
    EXPECT_NUMBER_AT(in_slot(AWAITS, NUMBER), 0, true);
    EXPECT_NUMBER_AT(in_slot(AWAITS, NUMBER), 9, true);
    EXPECT_NUMBER_AT(in_slot(AWAITS, NUMBER), 15, false);
    EXPECT_NUMBER_AT(in_slot(AWAITS, NUMBER), (uint64_t)1 << 63, false);
    EXPECT_NUMBER_AT(in_slot(AWAITS, NUMBER), UINT64_MAX, false);
    EXPECT_NUMBER_AT(in_slot(WAITS, TICKET), 22, false);
    EXPECT_NUMBER_AT(in_slot(WAITS_TOO, TICKET), 21, false);
    EXPECT_NUMBER_AT(in_slot(WAITS, TICKET), 20, true);
    EXPECT_NUMBER_AT(in_slot(WAITS, TICKET), 0, true);
    EXPECT_NUMBER_AT(in_slot(WAITS, TICKET), 23, false);
    EXPECT_NUMBER_AT(in_slot(WAITS, TICKET), UINT64_MAX, false);
    /* numbers that differ in one octet only, the highest too */
    restore();
    put_number(lent.image + NEXT_CONNECTION, UINT64_MAX);
    put_number(lent.image + in_slot(AWAITS, NUMBER), 10 + ((uint64_t)1 << 56));
    EXPECT_TAKEN(true);
}

/* Two slots far apart, on a server where all 64 are open. */
static void numbers_of_a_full_server_differ(void) {
    make_server();
    for (uint64_t i = 1; i <= 64; i++) {
        EXPECT_OPENED(UMBRELNIC_POP3, 1, i);
        EXPECT_QUERY(i, T("AUTH PLAIN ="), i, NO_OCTETS);
    }
    memcpy(written, lent.image, sizeof written);
    for (size_t i = 0; i < 64; i++) {
        for (size_t other = i % 3; other < 64; other += 3) {
            restore();
            put_number(lent.image + in_slot(i, NUMBER), other + 1);
            EXPECT_NUMBER(call_close(UINT64_MAX), other == i ? 2 : 20);
            restore();
            put_number(lent.image + in_slot(i, TICKET), other + 1);
            EXPECT_NUMBER(call_close(UINT64_MAX), other == i ? 2 : 20);
        }
    }
}

static void yes_or_no_and_profile(void) {
    static const size_t offsets[] = {PROFILE, PROTECTED, GREETED, TRANSACTION};
    make_five();
    for (size_t slot = 0; slot < FREE; slot++) {
        for (size_t i = 0; i < COUNT(offsets); i++) {
            EXPECT_OCTET(in_slot(slot, offsets[i]), 0, true);
            EXPECT_OCTET(in_slot(slot, offsets[i]), 1, true);
            EXPECT_OCTET(in_slot(slot, offsets[i]), 2, false);
            EXPECT_OCTET(in_slot(slot, offsets[i]), 128, false);
            EXPECT_OCTET(in_slot(slot, offsets[i]), 255, false);
        }
    }
}

/* Another phase has other fields: they are zero where it has none of them, and a name is there exactly where somebody is signed in. */
static void phases(void) {
    static const bool taken[FREE][5] = {
        [RESTING] = {true, false, true, true, false},
        [NAMED] = {false, true, false, false, false},
        [AWAITS] = {false, false, true, true, false},
        [WAITS] = {false, false, false, true, false},
        [WAITS_TOO] = {false, false, false, true, false},
    };
    make_five();
    for (size_t slot = 0; slot < FREE; slot++) {
        for (int phase = 0; phase < 5; phase++) {
            EXPECT_OCTET(in_slot(slot, PHASE), phase, taken[slot][phase]);
        }
        EXPECT_OCTET(in_slot(slot, PHASE), 128, false);
        EXPECT_OCTET(in_slot(slot, PHASE), 255, false);
    }
}

static void challenges_sent(void) {
    make_five();
    for (int sent = 0; sent < 256; sent++) {
        EXPECT_OCTET(in_slot(RESTING, SENT), sent, sent == 0);
        EXPECT_OCTET(in_slot(NAMED, SENT), sent, sent == 0);
        EXPECT_OCTET(in_slot(AWAITS, SENT), sent, sent <= 16);
        EXPECT_OCTET(in_slot(WAITS, SENT), sent, sent <= 16);
    }
}

static void tickets_where_none_waits(void) {
    make_five();
    for (size_t i = 0; i < 8; i++) {
        EXPECT_OCTET(in_slot(RESTING, TICKET + i), 1, false);
        EXPECT_OCTET(in_slot(NAMED, TICKET + i), 128, false);
        EXPECT_OCTET(in_slot(AWAITS, TICKET + i), 255, false);
    }
}

static void names_of_who_is_signed_in(void) {
    static const int good[] = {'!', '~', 'a', '=', '+'};
    static const int bad[] = {1, ' ', 127, 128, 255, '\r', '\n'};
    make_five();
    for (size_t i = 0; i < COUNT(good); i++) {
        EXPECT_OCTET(in_slot(NAMED, NAME), good[i], true);
        EXPECT_OCTET(in_slot(NAMED, NAME + 3), good[i], true);
        EXPECT_OCTET(in_slot(NAMED, NAME + 4), good[i], true);
        EXPECT_OCTET(in_slot(NAMED, NAME + 5), good[i], false);
        EXPECT_OCTET(in_slot(NAMED, NAME + 63), good[i], false);
    }
    for (size_t i = 0; i < COUNT(bad); i++) {
        for (size_t at = 0; at < 64; at++) {
            EXPECT_OCTET(in_slot(NAMED, NAME + at), bad[i], false);
        }
    }
    EXPECT_OCTET(in_slot(NAMED, NAME), 0, false);
    EXPECT_OCTET(in_slot(NAMED, NAME + 1), 0, false);
    EXPECT_OCTET(in_slot(NAMED, NAME + 3), 0, true);
    restore();
    memset(lent.image + in_slot(NAMED, NAME), '~', 64);
    EXPECT_TAKEN(true);
    EXPECT_NAME(10 + NAMED, repeated(T("~"), 64));
    memset(lent.image + in_slot(NAMED, NAME), 0, 64);
    EXPECT_TAKEN(false);
}

static void names_where_nobody_is_signed_in(void) {
    static const size_t others[] = {RESTING, AWAITS, WAITS};
    make_five();
    for (size_t i = 0; i < COUNT(others); i++) {
        for (size_t at = 0; at < 64; at++) {
            EXPECT_OCTET(in_slot(others[i], NAME + at), 'a', false);
        }
    }
}

int main(void) {
    static const struct test tests[] = {
        TEST(as_it_was_written),
        TEST(the_next_numbers),
        TEST(sealed),
        TEST(the_count_of_mechanisms),
        TEST(names_of_mechanisms),
        TEST(names_of_mechanisms_differ),
        TEST(flags_of_mechanisms),
        TEST(records_that_are_not_there),
        TEST(free_slots),
        TEST(numbers_differ),
        TEST(numbers_of_a_full_server_differ),
        TEST(yes_or_no_and_profile),
        TEST(phases),
        TEST(challenges_sent),
        TEST(tickets_where_none_waits),
        TEST(names_of_who_is_signed_in),
        TEST(names_where_nobody_is_signed_in),
    };
    return RUN_TESTS("images", tests);
}
