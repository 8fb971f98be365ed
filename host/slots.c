/* Slots and numbers: "The lowest free place is taken, and a freed place is taken again"; "Each issue takes the next number;
   2^64-1 is never issued". Which slot a connection is in is read from the image, by docs/IMAGE.md. */
#include "check.h"
#include <string.h>

static void expect_slot(uint64_t connection, size_t index) {
    expect_number("the slot of the connection", slot_index(connection), index);
}
#define EXPECT_SLOT(...) (AT, expect_slot(__VA_ARGS__))

static void the_size_of_an_image(void) {
    EXPECT_NUMBER(tested.image_octets(), UMBRELNIC_IMAGE_OCTETS);
}

static void a_new_server(void) {
    EXPECT_MADE(0x0123456789abcdef, 0xfedcba9876543210);
    EXPECT(memcmp(lent.image, "\xef\xcd\xab\x89\x67\x45\x23\x01\x10\x32\x54\x76\x98\xba\xdc\xfe", 16) == 0);
    for (size_t i = 16; i < UMBRELNIC_IMAGE_OCTETS; i++) {
        EXPECT_NUMBER(lent.image[i], 0);
    }
}

static void mechanisms_in_the_image(void) {
    make_server();
    EXPECT_NUMBER(lent.image[MECHANISM_COUNT], 2);
    EXPECT_NUMBER(lent.image[SEALED], 0);
    EXPECT(memcmp(lent.image + MECHANISMS, "PLAIN\0\0\0\0\0\0\0\0\0\0\0\0\0\0\0\1\1", MECHANISM_OCTETS) == 0);
    EXPECT(memcmp(lent.image + MECHANISMS + MECHANISM_OCTETS, "CRAM-MD5\0\0\0\0\0\0\0\0\0\0\0\0\0\0", MECHANISM_OCTETS) == 0);
}

/* Every octet of a slot, in each phase. */
static void expect_slot_octets(uint64_t connection, const uint8_t *start, struct text name) {
    uint8_t want[SLOT_OCTETS] = {0};
    memcpy(want, start, NAME);
    if (name.size > 0) {
        memcpy(want + NAME, name.octets, name.size);
    }
    EXPECT(memcmp(slot_of(connection), want, SLOT_OCTETS) == 0);
}
#define START(...) (const uint8_t[NAME]){__VA_ARGS__}

static void a_slot_in_each_phase(void) {
    EXPECT_MADE(0x1122334455667788, 0xa1b2c3d4e5f60718);
    EXPECT_ADDED(T("PLAIN"), 1, 1);
    uint64_t connection = call_open(UMBRELNIC_SMTP, 1).connection;
    EXPECT_NUMBER(lent.image[SEALED], 1);
    expect_slot_octets(connection, START(1, 0x88, 0x77, 0x66, 0x55, 0x44, 0x33, 0x22, 0x11, 0, 1, 0, 0, 0), NO_OCTETS);
    EXPECT_FORWARD(connection, T("EHLO a"));
    expect_slot_octets(connection, START(1, 0x88, 0x77, 0x66, 0x55, 0x44, 0x33, 0x22, 0x11, 0, 1, 1, 0, 0), NO_OCTETS);
    EXPECT_REPLY(connection, T("AUTH PLAIN"), "334 ");
    expect_slot_octets(connection, START(1, 0x88, 0x77, 0x66, 0x55, 0x44, 0x33, 0x22, 0x11, 0, 1, 1, 0, 2, 1), NO_OCTETS);
    EXPECT_QUERY(connection, T("Zm9v"), 0xa1b2c3d4e5f60718, T("foo"));
    expect_slot_octets(connection,
                       START(1, 0x88, 0x77, 0x66, 0x55, 0x44, 0x33, 0x22, 0x11, 0, 1, 1, 0, 3, 1, 0x18, 0x07, 0xf6, 0xe5, 0xd4, 0xc3,
                             0xb2, 0xa1),
                       NO_OCTETS);
    EXPECT_SAID(0xa1b2c3d4e5f60718, UMBRELNIC_SUCCESS, T("anna"), "235 2.7.0 Authentication succeeded");
    expect_slot_octets(connection, START(1, 0x88, 0x77, 0x66, 0x55, 0x44, 0x33, 0x22, 0x11, 0, 1, 1, 0, 1), T("anna"));
    EXPECT_MAIL(connection, T("MAIL FROM:<>"), UMBRELNIC_ABSENT);
    expect_slot_octets(connection, START(1, 0x88, 0x77, 0x66, 0x55, 0x44, 0x33, 0x22, 0x11, 0, 1, 1, 1, 1), T("anna"));
    EXPECT_DONE(call_mail_ended(connection));
    expect_slot_octets(connection, START(1, 0x88, 0x77, 0x66, 0x55, 0x44, 0x33, 0x22, 0x11, 0, 1, 1, 0, 1), T("anna"));
}

static void a_name_of_64_octets_fills_its_field(void) {
    make_server();
    uint64_t connection = open_pop3();
    sign_in(connection, repeated(T("~"), 64));
    expect_slot_octets(connection, START(1, 1, 0, 0, 0, 0, 0, 0, 0, 1, 1, 0, 0, 1), repeated(T("~"), 64));
    EXPECT_NAME(connection, repeated(T("~"), 64));
}

/* "Close: clears the place" */
static void a_closed_slot_is_zeros(void) {
    make_server();
    uint64_t signed_in = open_smtp();
    uint64_t waiting = open_smtp();
    sign_in(signed_in, repeated(T("n"), 64));
    EXPECT_START(waiting, T("AUTH CRAM-MD5"), 2);
    EXPECT_DONE(call_close(signed_in));
    EXPECT_DONE(call_close(waiting));
    for (size_t i = SLOTS; i < UMBRELNIC_IMAGE_OCTETS; i++) {
        EXPECT_NUMBER(lent.image[i], 0);
    }
    EXPECT_NUMBER(lent.image[SEALED], 1);
}

static void the_lowest_free_slot_is_taken(void) {
    make_server();
    for (uint64_t i = 0; i < 64; i++) {
        EXPECT_OPENED(UMBRELNIC_SMTP, 0, i + 1);
        EXPECT_SLOT(i + 1, i);
    }
    static const uint64_t closed[] = {64, 31, 1, 12};
    for (size_t i = 0; i < COUNT(closed); i++) {
        EXPECT_DONE(call_close(closed[i]));
    }
    static const size_t freed[] = {0, 11, 30, 63};
    for (size_t i = 0; i < COUNT(freed); i++) {
        EXPECT_OPENED(UMBRELNIC_POP3, 1, 65 + i);
        EXPECT_SLOT(65 + i, freed[i]);
    }
    EXPECT_REFUSED(call_open(0, 0).refusal, 6);
}

static void a_slot_is_taken_again_and_its_number_is_not(void) {
    make_server();
    for (uint64_t number = 1; number <= 200; number++) {
        EXPECT_OPENED(number % 2, 0, number);
        EXPECT_SLOT(number, 0);
        EXPECT_DONE(call_close(number));
    }
}

/* What the last connection in a slot was leaves nothing for the next. */
static void a_reopened_slot_is_new(void) {
    make_server();
    uint64_t first = open_smtp();
    sign_in(first, T("anna"));
    EXPECT_MAIL(first, T("MAIL FROM:<>"), UMBRELNIC_ABSENT);
    EXPECT_DONE(call_close(first));
    EXPECT_OPENED(UMBRELNIC_SMTP, 0, 2);
    EXPECT_SLOT(2, 0);
    EXPECT_NOBODY(2);
    /* neither greeted nor in a transaction, and not protected */
    EXPECT_REPLY(2, T("AUTH CRAM-MD5"), "503 5.5.1 Not permitted now");
    EXPECT_MAIL(2, T("MAIL FROM:<>"), UMBRELNIC_NULL);
    EXPECT_FORWARD(2, T("EHLO a"));
    EXPECT_REPLY(2, T("AUTH PLAIN"), "504 5.5.4 Mechanism not available");
}

static void numbers_from_zero(void) {
    EXPECT_MADE(0, 0);
    EXPECT_ADDED(T("PLAIN"), 1, 1);
    EXPECT_OPENED(UMBRELNIC_SMTP, 1, 0);
    EXPECT_FORWARD(0, T("EHLO a"));
    EXPECT_REFUSED(call_verdict(0, UMBRELNIC_REJECTED, NO_OCTETS).refusal, 4);
    EXPECT_QUERY(0, T("AUTH PLAIN Zm9v"), 0, T("foo"));
    EXPECT_OPENED(UMBRELNIC_SMTP, 1, 1);
    EXPECT_REFUSED(call_line(0, T("NOOP")).refusal, 3);
    EXPECT_SAID(0, UMBRELNIC_SUCCESS, T("anna"), "235 2.7.0 Authentication succeeded");
    EXPECT_NAME(0, T("anna"));
    EXPECT_NOBODY(1);
    EXPECT_DONE(call_close(0));
    EXPECT_REFUSED(call_close(0), 2);
}

/* Connections and tickets are counted apart, and refused calls use up neither. */
static void refused_calls_issue_nothing(void) {
    EXPECT_MADE(10, 500);
    EXPECT_ADDED(T("PLAIN"), 1, 1);
    EXPECT_REFUSED(call_open(7, 0).refusal, 5);
    EXPECT_REFUSED(call_open(0, 7).refusal, 5);
    EXPECT_OPENED(UMBRELNIC_POP3, 1, 10);
    EXPECT_OPENED(UMBRELNIC_POP3, 1, 11);
    EXPECT_REPLY(10, T("AUTH PLAIN !"), "-ERR Syntax error");
    EXPECT_REPLY(10, T("AUTH NOSUCH Zm9v"), "-ERR Mechanism not available");
    EXPECT_QUERY(10, T("AUTH PLAIN Zm9v"), 500, T("foo"));
    EXPECT_REFUSED(call_line(10, T("Zm9v")).refusal, 3);
    EXPECT_QUERY(11, T("AUTH PLAIN Zm9v"), 501, T("foo"));
    EXPECT_OPENED(UMBRELNIC_POP3, 1, 12);
}

static void the_last_connection_number(void) {
    EXPECT_MADE(UINT64_MAX - 3, 1);
    EXPECT_OPENED(UMBRELNIC_SMTP, 0, UINT64_MAX - 3);
    EXPECT_OPENED(UMBRELNIC_SMTP, 0, UINT64_MAX - 2);
    EXPECT_OPENED(UMBRELNIC_SMTP, 0, UINT64_MAX - 1);
    EXPECT_REFUSED(call_open(0, 0).refusal, 7);
    EXPECT_FORWARD(UINT64_MAX - 1, T("EHLO a"));
    EXPECT_DONE(call_close(UINT64_MAX - 2));
    EXPECT_REFUSED(call_open(0, 0).refusal, 7);
    EXPECT_NOBODY(UINT64_MAX - 1);
}

/* With no ticket left only a line that would be a query is refused. */
static void the_last_ticket(void) {
    EXPECT_MADE(1, UINT64_MAX - 1);
    EXPECT_ADDED(T("PLAIN"), 1, 1);
    EXPECT_ADDED(T("CRAM-MD5"), 0, 0);
    uint64_t last = open_smtp();
    uint64_t other = open_smtp();
    EXPECT_QUERY(last, T("AUTH PLAIN Zm9v"), UINT64_MAX - 1, T("foo"));
    EXPECT_FORWARD(other, T("EHLO b"));
    EXPECT_REFUSED(call_line(other, T("AUTH PLAIN Zm9v")).refusal, 7);
    EXPECT_REFUSED(call_line(other, T("AUTH PLAIN =")).refusal, 7);
    EXPECT_REFUSED(call_line(other, T("AUTH CRAM-MD5")).refusal, 7);
    EXPECT_REPLY(other, T("AUTH CRAM-MD5 Zm9v"), "501 5.7.0 Initial response not allowed");
    EXPECT_REPLY(other, T("AUTH PLAIN Zh=="), "501 5.5.2 Syntax error");
    EXPECT_REPLY(other, T("AUTH NOSUCH Zm9v"), "504 5.5.4 Mechanism not available");
    EXPECT_SAID(UINT64_MAX - 1, UMBRELNIC_CHALLENGE, NO_OCTETS, "334 ");
    /* the exchange goes on awaiting its answer */
    EXPECT_REFUSED(call_line(last, T("Zm9v")).refusal, 7);
    EXPECT_REFUSED(call_line(last, T("")).refusal, 7);
    EXPECT_REFUSED(call_verdict(UINT64_MAX, UMBRELNIC_SUCCESS, T("anna")).refusal, 4);
    EXPECT_REFUSED(call_line(last, T("Zm9v")).refusal, 7);
    EXPECT_REPLY(last, T("*"), "501 5.7.0 Authentication cancelled");
    EXPECT_FORWARD(last, T("NOOP"));
}

static void exchanges_without_a_ticket(void) {
    EXPECT_MADE(1, UINT64_MAX);
    EXPECT_ADDED(T("PLAIN"), 1, 1);
    uint64_t connection = open_smtp();
    EXPECT_REPLY(connection, T("AUTH PLAIN"), "334 ");
    EXPECT_REFUSED(call_line(connection, T("Zm9v")).refusal, 7);
    EXPECT_REPLY(connection, T("Zh=="), "501 5.5.2 Syntax error");
    EXPECT_REPLY(connection, T("AUTH PLAIN"), "334 ");
    EXPECT_REPLY(connection, T("*"), "501 5.7.0 Authentication cancelled");
    EXPECT_REPLY(connection, T("AUTH PLAIN"), "334 ");
    EXPECT_REPLY(connection, repeated(T("A"), 12287), "500 5.5.6 Authentication line too long");
    EXPECT_MAIL(connection, T("MAIL FROM:<>"), UMBRELNIC_NULL);
}

/* A second make starts over. */
static void make_replaces_the_whole_image(void) {
    make_server();
    uint64_t connection = open_smtp();
    sign_in(connection, T("anna"));
    EXPECT_DONE(call_make(1, 1));
    EXPECT_REFUSED(call_who(connection).refusal, 2);
    EXPECT_ADDED(T("PLAIN"), 1, 1);
    EXPECT_OPENED(UMBRELNIC_SMTP, 1, 1);
    EXPECT_NOBODY(1);
}

int main(void) {
    static const struct test tests[] = {
        TEST(the_size_of_an_image),
        TEST(a_new_server),
        TEST(mechanisms_in_the_image),
        TEST(a_slot_in_each_phase),
        TEST(a_name_of_64_octets_fills_its_field),
        TEST(a_closed_slot_is_zeros),
        TEST(the_lowest_free_slot_is_taken),
        TEST(a_slot_is_taken_again_and_its_number_is_not),
        TEST(a_reopened_slot_is_new),
        TEST(numbers_from_zero),
        TEST(refused_calls_issue_nothing),
        TEST(the_last_connection_number),
        TEST(the_last_ticket),
        TEST(exchanges_without_a_ticket),
        TEST(make_replaces_the_whole_image),
    };
    return RUN_TESTS("slots", tests);
}
