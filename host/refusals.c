/* Each refusal by its exact condition, and where more than one would fit, the one that document 01's order has first. That a
   refused call changes nothing and gives no other number is checked at every call (check.h). */
#include "check.h"

static const uint64_t not_yes_or_no[] = {
    2, 3, 255, 256, 257, (uint64_t)1 << 32, ((uint64_t)1 << 32) + 1, (uint64_t)1 << 63, UINT64_MAX,
};

/* An image that is not taken: the count of mechanisms is 9. */
static void spoil(void) {
    lent.image[MECHANISM_COUNT] = 9;
}

/* --- 1: a lent buffer is shorter than above --- */

static void line_needs_its_reply_buffer(void) {
    make_server();
    uint64_t connection = open_smtp();
    lent.reply_octets = UMBRELNIC_REPLY_OCTETS - 1;
    EXPECT_REFUSED(call_line(connection, T("NOOP")).refusal, 1);
    lent.reply_octets = 0;
    EXPECT_REFUSED(call_line(connection, T("NOOP")).refusal, 1);
    lent.reply_octets = UMBRELNIC_REPLY_OCTETS;
    EXPECT_FORWARD(connection, T("NOOP"));
    lent.reply_octets = UMBRELNIC_REPLY_OCTETS + 1;
    EXPECT_FORWARD(connection, T("NOOP"));
    EXPECT_REPLY(connection, T("AUTH"), "501 5.5.2 Syntax error");
}

static void line_needs_its_answer_buffer(void) {
    make_server();
    uint64_t connection = open_smtp();
    lent.answer_octets = UMBRELNIC_ANSWER_OCTETS - 1;
    EXPECT_REFUSED(call_line(connection, T("NOOP")).refusal, 1);
    EXPECT_REFUSED(call_line(connection, T("AUTH PLAIN Zm9v")).refusal, 1);
    lent.answer_octets = 0;
    EXPECT_REFUSED(call_line(connection, T("NOOP")).refusal, 1);
    lent.answer_octets = UMBRELNIC_ANSWER_OCTETS + 1;
    EXPECT_QUERY(connection, T("AUTH PLAIN Zm9v"), 1, T("foo"));
}

static void verdict_needs_both_buffers(void) {
    make_server();
    uint64_t connection = open_smtp();
    EXPECT_QUERY(connection, T("AUTH PLAIN Zm9v"), 1, T("foo"));
    lent.reply_octets = UMBRELNIC_REPLY_OCTETS - 1;
    EXPECT_REFUSED(call_verdict(1, UMBRELNIC_REJECTED, NO_OCTETS).refusal, 1);
    lent.reply_octets = UMBRELNIC_REPLY_OCTETS + 1;
    lent.answer_octets = UMBRELNIC_ANSWER_OCTETS - 1;
    EXPECT_REFUSED(call_verdict(1, UMBRELNIC_REJECTED, NO_OCTETS).refusal, 1);
    lent.answer_octets = 0;
    EXPECT_REFUSED(call_verdict(1, UMBRELNIC_REJECTED, NO_OCTETS).refusal, 1);
    lent.answer_octets = UMBRELNIC_ANSWER_OCTETS;
    EXPECT_SAID(1, UMBRELNIC_REJECTED, NO_OCTETS, "535 5.7.8 Credentials not accepted");
}

static void who_needs_its_name_buffer(void) {
    make_server();
    uint64_t connection = open_smtp();
    lent.name_octets = UMBRELNIC_NAME_OCTETS - 1;
    EXPECT_REFUSED(call_who(connection).refusal, 1);
    lent.name_octets = 0;
    EXPECT_REFUSED(call_who(connection).refusal, 1);
    lent.name_octets = UMBRELNIC_NAME_OCTETS;
    EXPECT_NOBODY(connection);
    sign_in(connection, T("a"));
    lent.name_octets = 1;
    EXPECT_REFUSED(call_who(connection).refusal, 1);
    lent.name_octets = UMBRELNIC_NAME_OCTETS + 1;
    EXPECT_NAME(connection, T("a"));
}

/* --- 2 and 4: no open connection has this number, or waits on this ticket --- */

static void expect_no_connection(uint64_t connection) {
    EXPECT_REFUSED(call_line(connection, T("NOOP")).refusal, 2);
    EXPECT_REFUSED(call_mail_ended(connection), 2);
    EXPECT_REFUSED(call_who(connection).refusal, 2);
    EXPECT_REFUSED(call_close(connection), 2);
}

static void numbers_of_no_connection(void) {
    EXPECT_MADE(5, 70);
    EXPECT_ADDED(T("PLAIN"), 1, 1);
    expect_no_connection(5);
    expect_no_connection(0);
    uint64_t connection = open_smtp();
    EXPECT_NUMBER(connection, 5);
    static const uint64_t others[] = {0, 1, 4, 6, 70, 5 + 256, 5 + ((uint64_t)1 << 32), UINT64_MAX};
    for (size_t i = 0; i < COUNT(others); i++) {
        expect_no_connection(others[i]);
    }
    EXPECT_FORWARD(connection, T("NOOP"));
    EXPECT_DONE(call_close(connection));
    expect_no_connection(connection);
}

static void tickets_nobody_waits_on(void) {
    EXPECT_MADE(5, 70);
    EXPECT_ADDED(T("PLAIN"), 1, 1);
    uint64_t connection = open_smtp();
    EXPECT_REFUSED(call_verdict(70, UMBRELNIC_REJECTED, NO_OCTETS).refusal, 4);
    EXPECT_REFUSED(call_verdict(0, UMBRELNIC_REJECTED, NO_OCTETS).refusal, 4);
    EXPECT_QUERY(connection, T("AUTH PLAIN Zm9v"), 70, T("foo"));
    static const uint64_t others[] = {0, 5, 69, 71, 70 + 256, 70 + ((uint64_t)1 << 32), UINT64_MAX};
    for (size_t i = 0; i < COUNT(others); i++) {
        EXPECT_REFUSED(call_verdict(others[i], UMBRELNIC_REJECTED, NO_OCTETS).refusal, 4);
    }
    EXPECT_SAID(70, UMBRELNIC_REJECTED, NO_OCTETS, "535 5.7.8 Credentials not accepted");
    EXPECT_REFUSED(call_verdict(70, UMBRELNIC_REJECTED, NO_OCTETS).refusal, 4);
}

/* The exchange awaits an answer: its last ticket is used up. */
static void a_ticket_ends_with_its_challenge(void) {
    make_server();
    uint64_t connection = open_smtp();
    EXPECT_START(connection, T("AUTH CRAM-MD5"), 1);
    EXPECT_SAID(1, UMBRELNIC_CHALLENGE, T("foo"), "334 Zm9v");
    EXPECT_REFUSED(call_verdict(1, UMBRELNIC_CHALLENGE, T("foo")).refusal, 4);
    EXPECT_REFUSED(call_verdict(0, UMBRELNIC_CHALLENGE, T("foo")).refusal, 4);
    EXPECT_QUERY(connection, T("Zm9v"), 2, T("foo"));
    EXPECT_REFUSED(call_verdict(1, UMBRELNIC_SUCCESS, T("anna")).refusal, 4);
    EXPECT_NOBODY(connection);
}

/* --- 3: a line comes while its connection waits on a ticket --- */

static void a_line_while_a_ticket_waits(void) {
    make_server();
    uint64_t connection = open_smtp();
    EXPECT_QUERY(connection, T("AUTH PLAIN Zm9v"), 1, T("foo"));
    EXPECT_REFUSED(call_line(connection, T("NOOP")).refusal, 3);
    EXPECT_REFUSED(call_line(connection, T("*")).refusal, 3);
    EXPECT_REFUSED(call_line(connection, T("")).refusal, 3);
    EXPECT_REFUSED(call_line(connection, repeated(T("A"), 20000)).refusal, 3);
    /* the other calls are for such a connection too */
    EXPECT_NOBODY(connection);
    EXPECT_DONE(call_mail_ended(connection));
    EXPECT_REFUSED(call_line(connection, T("NOOP")).refusal, 3);
    EXPECT_SAID(1, UMBRELNIC_REJECTED, NO_OCTETS, "535 5.7.8 Credentials not accepted");
    EXPECT_FORWARD(connection, T("NOOP"));
}

static void another_connection_may_send_meanwhile(void) {
    make_server();
    uint64_t waiting = open_smtp();
    uint64_t other = open_pop3();
    EXPECT_START(waiting, T("AUTH CRAM-MD5"), 1);
    EXPECT_FORWARD(other, T("NOOP"));
    EXPECT_REFUSED(call_line(waiting, T("NOOP")).refusal, 3);
}

/* --- 5: profile, verdict, yes-or-no --- */

static void open_with_a_number_not_listed(void) {
    make_server();
    for (size_t i = 0; i < COUNT(not_yes_or_no); i++) {
        EXPECT_REFUSED(call_open(not_yes_or_no[i], 0).refusal, 5);
        EXPECT_REFUSED(call_open(0, not_yes_or_no[i]).refusal, 5);
        EXPECT_REFUSED(call_open(not_yes_or_no[i], not_yes_or_no[i]).refusal, 5);
    }
    EXPECT_OPENED(UMBRELNIC_SMTP, 0, 1);
    EXPECT_OPENED(UMBRELNIC_SMTP, 1, 2);
    EXPECT_OPENED(UMBRELNIC_POP3, 0, 3);
    EXPECT_OPENED(UMBRELNIC_POP3, 1, 4);
}

static void add_with_a_number_not_listed(void) {
    EXPECT_MADE(1, 1);
    for (size_t i = 0; i < COUNT(not_yes_or_no); i++) {
        EXPECT_REFUSED(call_add(T("PLAIN"), not_yes_or_no[i], 0), 5);
        EXPECT_REFUSED(call_add(T("PLAIN"), 1, not_yes_or_no[i]), 5);
    }
    EXPECT_ADDED(T("A"), 0, 0);
    EXPECT_ADDED(T("B"), 0, 1);
    EXPECT_ADDED(T("C"), 1, 0);
    EXPECT_ADDED(T("D"), 1, 1);
}

static void verdicts_not_listed(void) {
    make_server();
    uint64_t connection = open_smtp();
    EXPECT_QUERY(connection, T("AUTH PLAIN Zm9v"), 1, T("foo"));
    static const uint64_t others[] = {6, 7, 255, 256, 257, 261, (uint64_t)1 << 32, ((uint64_t)1 << 32) + 1, UINT64_MAX};
    for (size_t i = 0; i < COUNT(others); i++) {
        EXPECT_REFUSED(call_verdict(1, others[i], NO_OCTETS).refusal, 5);
        EXPECT_REFUSED(call_verdict(1, others[i], T("anna")).refusal, 5);
    }
    EXPECT_SAID(1, UMBRELNIC_WEAK, NO_OCTETS, "534 5.7.9 Mechanism too weak");
}

/* "rejected, temporary, transition, weak, these four with no data" */
static void verdicts_that_have_no_data(void) {
    make_server();
    uint64_t connection = open_smtp();
    EXPECT_QUERY(connection, T("AUTH PLAIN Zm9v"), 1, T("foo"));
    for (uint64_t verdict = UMBRELNIC_REJECTED; verdict <= UMBRELNIC_WEAK; verdict++) {
        EXPECT_REFUSED(call_verdict(1, verdict, T("a")).refusal, 5);
        EXPECT_REFUSED(call_verdict(1, verdict, T("\0")).refusal, 5);
        EXPECT_REFUSED(call_verdict(1, verdict, repeated(T("a"), 20000)).refusal, 5);
    }
    EXPECT_REFUSED(call_line(connection, T("NOOP")).refusal, 3);
    EXPECT_SAID(1, UMBRELNIC_SUCCESS, T("anna"), "235 2.7.0 Authentication succeeded");
}

static void challenges_of_every_length(void) {
    static const size_t too_long[] = {9211, 9212, 9213, 9214, 12288, 65536 + 3, 100000};
    make_server();
    uint64_t connection = open_smtp();
    EXPECT_QUERY(connection, T("AUTH PLAIN Zm9v"), 1, T("foo"));
    for (size_t i = 0; i < COUNT(too_long); i++) {
        EXPECT_REFUSED(call_verdict(1, UMBRELNIC_CHALLENGE, repeated(T("\0"), too_long[i])).refusal, 5);
    }
    EXPECT_NUMBER(call_verdict(1, UMBRELNIC_CHALLENGE, repeated(T("\0"), 9210)).refusal, 0);
    EXPECT_QUERY(connection, T(""), 2, NO_OCTETS);
    EXPECT_SAID(2, UMBRELNIC_CHALLENGE, NO_OCTETS, "334 ");
}

static void names_that_a_connection_cannot_bear(void) {
    static const char edges[] = {'\0', '\x01', '\r', '\n', ' ', '\x7f', '\x80', '\xa1', '\xff'};
    make_server();
    uint64_t connection = open_smtp();
    EXPECT_QUERY(connection, T("AUTH PLAIN Zm9v"), 1, T("foo"));
    EXPECT_REFUSED(call_verdict(1, UMBRELNIC_SUCCESS, NO_OCTETS).refusal, 5);
    EXPECT_REFUSED(call_verdict(1, UMBRELNIC_SUCCESS, repeated(T("n"), 65)).refusal, 5);
    EXPECT_REFUSED(call_verdict(1, UMBRELNIC_SUCCESS, repeated(T("n"), 64 + 256)).refusal, 5);
    for (size_t i = 0; i < COUNT(edges); i++) {
        struct text edge = {(const uint8_t *)&edges[i], 1};
        EXPECT_REFUSED(call_verdict(1, UMBRELNIC_SUCCESS, edge).refusal, 5);
        EXPECT_REFUSED(call_verdict(1, UMBRELNIC_SUCCESS, joined(edge, T("anna"))).refusal, 5);
        EXPECT_REFUSED(call_verdict(1, UMBRELNIC_SUCCESS, joined(T("anna"), edge)).refusal, 5);
        EXPECT_REFUSED(call_verdict(1, UMBRELNIC_SUCCESS, joined(repeated(T("n"), 63), edge)).refusal, 5);
    }
    EXPECT_NOBODY(connection);
    EXPECT_REFUSED(call_line(connection, T("NOOP")).refusal, 3);
}

static void expect_bears(struct text name) {
    make_server();
    uint64_t connection = open_smtp();
    EXPECT_QUERY(connection, T("AUTH PLAIN Zm9v"), 1, T("foo"));
    EXPECT_SAID(1, UMBRELNIC_SUCCESS, name, "235 2.7.0 Authentication succeeded");
    EXPECT_NAME(connection, name);
}

static void names_that_a_connection_can_bear(void) {
    expect_bears(T("!"));
    expect_bears(T("~"));
    expect_bears(T("!~"));
    expect_bears(repeated(T("n"), 63));
    expect_bears(repeated(T("~"), 64));
    expect_bears(repeated(T("!"), 64));
    expect_bears(T("\"#$%&'()*+,-./0123456789:;<=>?@ABCDEFGHIJKLMNOPQRSTUVWXYZ[\\]^_`"));
    expect_bears(T("abcdefghijklmnopqrstuvwxyz{|}"));
}

/* --- 6 and 7: open --- */

static void sixty_four_connections(void) {
    make_server();
    for (uint64_t connection = 1; connection <= 64; connection++) {
        EXPECT_OPENED(connection % 2, connection / 2 % 2, connection);
    }
    EXPECT_REFUSED(call_open(0, 0).refusal, 6);
    EXPECT_REFUSED(call_open(1, 1).refusal, 6);
    EXPECT_DONE(call_close(40));
    EXPECT_OPENED(UMBRELNIC_SMTP, 0, 65);
    EXPECT_REFUSED(call_open(0, 0).refusal, 6);
}

static void connection_numbers_end(void) {
    EXPECT_MADE(UINT64_MAX - 1, 1);
    EXPECT_OPENED(UMBRELNIC_SMTP, 0, UINT64_MAX - 1);
    EXPECT_REFUSED(call_open(0, 0).refusal, 7);
    EXPECT_DONE(call_close(UINT64_MAX - 1));
    EXPECT_REFUSED(call_open(0, 0).refusal, 7);
    EXPECT_REFUSED(call_close(UINT64_MAX), 2);
}

/* "Each issue takes the next number": make needs none. */
static void make_takes_the_number_that_is_never_issued(void) {
    EXPECT_MADE(UINT64_MAX, UINT64_MAX);
    EXPECT_ADDED(T("PLAIN"), 1, 0);
    EXPECT_REFUSED(call_open(0, 0).refusal, 7);
    /* a refused open does not end adding */
    EXPECT_ADDED(T("OTHER"), 1, 0);
    EXPECT_MADE(0, 0);
    EXPECT_OPENED(UMBRELNIC_SMTP, 0, 0);
}

/* --- 8, 9, 10, 11: mechanisms --- */

static void names_of_mechanisms(void) {
    EXPECT_MADE(1, 1);
    EXPECT_REFUSED(call_add(NO_OCTETS, 1, 0), 8);
    EXPECT_REFUSED(call_add(T("ABCDEFGHIJKLMNOPQRSTU"), 1, 0), 8);
    EXPECT_REFUSED(call_add(repeated(T("A"), 276), 1, 0), 8);
    EXPECT_REFUSED(call_add(T("plain"), 1, 0), 8);
    EXPECT_REFUSED(call_add(T("PLAIn"), 1, 0), 8);
    EXPECT_REFUSED(call_add(T("PLAIN\0"), 1, 0), 8);
    EXPECT_REFUSED(call_add(T("\0PLAIN"), 1, 0), 8);
    EXPECT_REFUSED(call_add(T("\0"), 1, 0), 8);
    EXPECT_REFUSED(call_add(T("PL AIN"), 1, 0), 8);
    EXPECT_REFUSED(call_add(T(" "), 1, 0), 8);
    EXPECT_REFUSED(call_add(T("PLAIN "), 1, 0), 8);
    EXPECT_ADDED(T("ABCDEFGHIJKLMNOPQRST"), 1, 0);
    EXPECT_ADDED(T("ABCDEFGHIJKLMNOPQRS"), 1, 0);
    EXPECT_ADDED(T("A"), 1, 0);
    EXPECT_ADDED(T("-"), 1, 0);
    EXPECT_ADDED(T("_"), 1, 0);
    EXPECT_ADDED(T("0"), 1, 0);
    EXPECT_ADDED(T("U-V_W-XYZ0123456789"), 1, 0);
}

static void every_octet_of_a_mechanism_name(void) {
    for (int octet = 0; octet < 256; octet++) {
        uint8_t name[2] = {'X', (uint8_t)octet};
        bool good = ('A' <= octet && octet <= 'Z') || ('0' <= octet && octet <= '9') || octet == '-' || octet == '_';
        EXPECT_MADE(1, 1);
        EXPECT_REFUSED(call_add((struct text){name, 2}, 0, 0), good ? 0 : 8);
        EXPECT_REFUSED(call_add((struct text){name + 1, 1}, 0, 0), good ? 0 : 8);
    }
}

static void a_name_is_present_once(void) {
    make_server();
    EXPECT_REFUSED(call_add(T("PLAIN"), 1, 1), 9);
    EXPECT_REFUSED(call_add(T("PLAIN"), 0, 0), 9);
    EXPECT_REFUSED(call_add(T("CRAM-MD5"), 0, 0), 9);
    EXPECT_ADDED(T("PLAI"), 1, 1);
    EXPECT_ADDED(T("PLAINS"), 1, 1);
    EXPECT_ADDED(T("ABCDEFGHIJKLMNOPQRST"), 1, 1);
    EXPECT_ADDED(T("ABCDEFGHIJKLMNOPQRSU"), 1, 1);
    EXPECT_REFUSED(call_add(T("ABCDEFGHIJKLMNOPQRST"), 1, 1), 9);
}

static void eight_mechanisms(void) {
    static const char *const names[] = {"A", "B", "C", "D", "E", "F", "G", "H"};
    EXPECT_MADE(1, 1);
    for (size_t i = 0; i < COUNT(names); i++) {
        EXPECT_ADDED(of_string(names[i]), i % 2, i / 2 % 2);
    }
    EXPECT_REFUSED(call_add(T("I"), 1, 0), 10);
    EXPECT_REFUSED(call_add(T("H"), 1, 0), 9);
}

static void adding_ends_with_the_first_open(void) {
    make_server();
    EXPECT_REFUSED(call_open(2, 0).refusal, 5);
    EXPECT_ADDED(T("LATE"), 1, 0);
    EXPECT_OPENED(UMBRELNIC_SMTP, 0, 1);
    EXPECT_REFUSED(call_add(T("LATER"), 1, 0), 11);
    EXPECT_DONE(call_close(1));
    EXPECT_REFUSED(call_add(T("LATER"), 1, 0), 11);
    EXPECT_MADE(1, 1);
    EXPECT_ADDED(T("LATER"), 1, 0);
}

/* --- 20: the lent image --- */

static void expect_every_call_refused(void) {
    EXPECT_REFUSED(call_add(T("X"), 1, 0), 20);
    EXPECT_REFUSED(call_open(0, 0).refusal, 20);
    EXPECT_REFUSED(call_line(1, T("NOOP")).refusal, 20);
    EXPECT_REFUSED(call_verdict(1, UMBRELNIC_REJECTED, NO_OCTETS).refusal, 20);
    EXPECT_REFUSED(call_mail_ended(1), 20);
    EXPECT_REFUSED(call_who(1).refusal, 20);
    EXPECT_REFUSED(call_close(1), 20);
}

static void images_of_another_length(void) {
    static const size_t sizes[] = {0, 1, 18, 194, 5761, 5763, 2 * 5762};
    for (size_t i = 0; i < COUNT(sizes); i++) {
        make_server();
        open_smtp();
        resize_image(sizes[i]);
        EXPECT_REFUSED(call_make(1, 1), 20);
        expect_every_call_refused();
    }
}

static void an_image_that_is_not_taken(void) {
    make_server();
    open_smtp();
    spoil();
    expect_every_call_refused();
    EXPECT_DONE(call_make(1, 1));
    EXPECT_OPENED(UMBRELNIC_SMTP, 0, 1);
}

static void random_octets_are_no_image(void) {
    for (int i = 0; i < 100; i++) {
        resize_image(0);
        resize_image(UMBRELNIC_IMAGE_OCTETS);
        expect_every_call_refused();
    }
}

/* --- the order: "1; 20; then 2 or 4; 3; 5; 6; 7. For mechanisms: 20, 5, 11, 8, 9, 10." --- */

static void a_short_buffer_comes_first(void) {
    make_server();
    uint64_t connection = open_smtp();
    EXPECT_QUERY(connection, T("AUTH PLAIN Zm9v"), 1, T("foo"));
    for (int spoilt = 0; spoilt <= 1; spoilt++) {
        lent.reply_octets = UMBRELNIC_REPLY_OCTETS - 1;
        lent.name_octets = UMBRELNIC_NAME_OCTETS - 1;
        EXPECT_REFUSED(call_line(connection, T("NOOP")).refusal, 1);
        EXPECT_REFUSED(call_line(99, T("NOOP")).refusal, 1);
        EXPECT_REFUSED(call_verdict(99, 6, T("a")).refusal, 1);
        EXPECT_REFUSED(call_verdict(1, 6, NO_OCTETS).refusal, 1);
        EXPECT_REFUSED(call_who(99).refusal, 1);
        lent.reply_octets = UMBRELNIC_REPLY_OCTETS;
        lent.answer_octets = UMBRELNIC_ANSWER_OCTETS - 1;
        EXPECT_REFUSED(call_line(connection, T("NOOP")).refusal, 1);
        EXPECT_REFUSED(call_verdict(99, 6, T("a")).refusal, 1);
        lent.answer_octets = UMBRELNIC_ANSWER_OCTETS;
        spoil();
    }
    resize_image(UMBRELNIC_IMAGE_OCTETS - 1);
    lent.reply_octets = 0;
    lent.name_octets = 0;
    EXPECT_REFUSED(call_line(connection, T("NOOP")).refusal, 1);
    EXPECT_REFUSED(call_verdict(1, UMBRELNIC_REJECTED, NO_OCTETS).refusal, 1);
    EXPECT_REFUSED(call_who(connection).refusal, 1);
}

/* 1 before 7 as well: with no ticket left a query is refused, with a short buffer by that. */
static void a_short_buffer_comes_before_exhaustion(void) {
    EXPECT_MADE(1, UINT64_MAX);
    EXPECT_ADDED(T("PLAIN"), 1, 1);
    uint64_t connection = open_smtp();
    EXPECT_REFUSED(call_line(connection, T("AUTH PLAIN Zm9v")).refusal, 7);
    lent.answer_octets = UMBRELNIC_ANSWER_OCTETS - 1;
    EXPECT_REFUSED(call_line(connection, T("AUTH PLAIN Zm9v")).refusal, 1);
    lent.answer_octets = UMBRELNIC_ANSWER_OCTETS;
    spoil();
    EXPECT_REFUSED(call_line(connection, T("AUTH PLAIN Zm9v")).refusal, 20);
}

static void the_image_comes_second(void) {
    make_server();
    uint64_t connection = open_smtp();
    EXPECT_QUERY(connection, T("AUTH PLAIN Zm9v"), 1, T("foo"));
    spoil();
    EXPECT_REFUSED(call_line(99, T("NOOP")).refusal, 20);
    EXPECT_REFUSED(call_line(connection, T("NOOP")).refusal, 20);
    EXPECT_REFUSED(call_verdict(99, UMBRELNIC_REJECTED, NO_OCTETS).refusal, 20);
    EXPECT_REFUSED(call_verdict(1, 6, NO_OCTETS).refusal, 20);
    EXPECT_REFUSED(call_mail_ended(99), 20);
    EXPECT_REFUSED(call_who(99).refusal, 20);
    EXPECT_REFUSED(call_close(99), 20);
    EXPECT_REFUSED(call_open(2, 2).refusal, 20);
    EXPECT_REFUSED(call_add(T("X"), 2, 2), 20);
    EXPECT_REFUSED(call_add(T("plain"), 1, 1), 20);
    EXPECT_REFUSED(call_add(T("PLAIN"), 1, 1), 20);
}

static void the_ticket_comes_before_the_verdict(void) {
    make_server();
    uint64_t connection = open_smtp();
    EXPECT_REFUSED(call_verdict(1, 6, NO_OCTETS).refusal, 4);
    EXPECT_REFUSED(call_verdict(1, UMBRELNIC_SUCCESS, NO_OCTETS).refusal, 4);
    EXPECT_REFUSED(call_verdict(1, UMBRELNIC_CHALLENGE, repeated(T("a"), 9211)).refusal, 4);
    EXPECT_QUERY(connection, T("AUTH PLAIN Zm9v"), 1, T("foo"));
    EXPECT_REFUSED(call_verdict(2, UMBRELNIC_REJECTED, T("a")).refusal, 4);
    EXPECT_REFUSED(call_verdict(1, UMBRELNIC_REJECTED, T("a")).refusal, 5);
}

/* With no ticket left, a line for a waiting connection is refused 3 and for none 2. */
static void waiting_comes_before_exhaustion(void) {
    EXPECT_MADE(1, UINT64_MAX - 1);
    EXPECT_ADDED(T("PLAIN"), 1, 1);
    uint64_t waiting = open_smtp();
    uint64_t other = open_smtp();
    EXPECT_QUERY(waiting, T("AUTH PLAIN Zm9v"), UINT64_MAX - 1, T("foo"));
    EXPECT_REFUSED(call_line(waiting, T("AUTH PLAIN Zm9v")).refusal, 3);
    EXPECT_REFUSED(call_line(99, T("AUTH PLAIN Zm9v")).refusal, 2);
    EXPECT_REFUSED(call_line(other, T("AUTH PLAIN Zm9v")).refusal, 7);
}

static void open_is_refused_in_order(void) {
    EXPECT_MADE(UINT64_MAX - 64, 1);
    for (uint64_t i = 0; i < 64; i++) {
        EXPECT_OPENED(UMBRELNIC_POP3, 0, UINT64_MAX - 64 + i);
    }
    /* full, and no number is left */
    EXPECT_REFUSED(call_open(2, 0).refusal, 5);
    EXPECT_REFUSED(call_open(0, 2).refusal, 5);
    EXPECT_REFUSED(call_open(0, 0).refusal, 6);
    spoil();
    EXPECT_REFUSED(call_open(0, 0).refusal, 20);
    lent.image[MECHANISM_COUNT] = 0;
    EXPECT_DONE(call_close(UINT64_MAX - 1));
    EXPECT_REFUSED(call_open(2, 0).refusal, 5);
    EXPECT_REFUSED(call_open(0, 0).refusal, 7);
    spoil();
    EXPECT_REFUSED(call_open(2, 0).refusal, 20);
    EXPECT_REFUSED(call_open(0, 0).refusal, 20);
}

/* A name that is bad cannot be present; every other pair is met, on servers that are sealed or not, full or not. */
static void add_is_refused_in_order(void) {
    static const char *const names[] = {"A", "B", "C", "D", "E", "F", "G", "H"};
    EXPECT_MADE(1, 1);
    EXPECT_ADDED(T("A"), 1, 0);
    EXPECT_REFUSED(call_add(T("A"), 2, 0), 5);
    EXPECT_REFUSED(call_add(T("a"), 0, 2), 5);
    for (size_t i = 1; i < COUNT(names); i++) {
        EXPECT_ADDED(of_string(names[i]), 1, 0);
    }
    EXPECT_REFUSED(call_add(T("I"), 2, 0), 5);
    EXPECT_REFUSED(call_add(T("i"), 1, 0), 8);
    EXPECT_REFUSED(call_add(T("A"), 1, 0), 9);
    EXPECT_REFUSED(call_add(T("I"), 1, 0), 10);
    EXPECT_OPENED(UMBRELNIC_SMTP, 0, 1);
    EXPECT_REFUSED(call_add(T("I"), 2, 0), 5);
    EXPECT_REFUSED(call_add(T("I"), 0, UINT64_MAX), 5);
    EXPECT_REFUSED(call_add(T("i"), 1, 0), 11);
    EXPECT_REFUSED(call_add(T("A"), 1, 0), 11);
    EXPECT_REFUSED(call_add(T("I"), 1, 0), 11);
    spoil();
    EXPECT_REFUSED(call_add(T("I"), 2, 0), 20);
}

int main(void) {
    static const struct test tests[] = {
        TEST(line_needs_its_reply_buffer),
        TEST(line_needs_its_answer_buffer),
        TEST(verdict_needs_both_buffers),
        TEST(who_needs_its_name_buffer),
        TEST(numbers_of_no_connection),
        TEST(tickets_nobody_waits_on),
        TEST(a_ticket_ends_with_its_challenge),
        TEST(a_line_while_a_ticket_waits),
        TEST(another_connection_may_send_meanwhile),
        TEST(open_with_a_number_not_listed),
        TEST(add_with_a_number_not_listed),
        TEST(verdicts_not_listed),
        TEST(verdicts_that_have_no_data),
        TEST(challenges_of_every_length),
        TEST(names_that_a_connection_cannot_bear),
        TEST(names_that_a_connection_can_bear),
        TEST(sixty_four_connections),
        TEST(connection_numbers_end),
        TEST(make_takes_the_number_that_is_never_issued),
        TEST(names_of_mechanisms),
        TEST(every_octet_of_a_mechanism_name),
        TEST(a_name_is_present_once),
        TEST(eight_mechanisms),
        TEST(adding_ends_with_the_first_open),
        TEST(images_of_another_length),
        TEST(an_image_that_is_not_taken),
        TEST(random_octets_are_no_image),
        TEST(a_short_buffer_comes_first),
        TEST(a_short_buffer_comes_before_exhaustion),
        TEST(the_image_comes_second),
        TEST(the_ticket_comes_before_the_verdict),
        TEST(waiting_comes_before_exhaustion),
        TEST(open_is_refused_in_order),
        TEST(add_is_refused_in_order),
    };
    return RUN_TESTS("refusals", tests);
}
