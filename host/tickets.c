/* "A connection bears a name only through a success verdict on a ticket issued to that connection. Ending it voids its ticket." */
#include "check.h"

static void a_late_verdict_after_close(void) {
    make_server();
    uint64_t connection = open_smtp();
    EXPECT_QUERY(connection, T("AUTH PLAIN Zm9v"), 1, T("foo"));
    EXPECT_DONE(call_close(connection));
    EXPECT_REFUSED(call_verdict(1, UMBRELNIC_SUCCESS, T("anna")).refusal, 4);
    EXPECT_REFUSED(call_verdict(0, UMBRELNIC_SUCCESS, T("anna")).refusal, 4);
}

/* The next visitor in the same slot: document 01's "late verdict signs in the next visitor". */
static void a_late_verdict_after_close_and_open(void) {
    make_server();
    uint64_t first = open_smtp();
    EXPECT_QUERY(first, T("AUTH PLAIN Zm9v"), 1, T("foo"));
    EXPECT_DONE(call_close(first));
    uint64_t second = open_smtp();
    EXPECT_NUMBER(slot_index(second), 0);
    EXPECT_REFUSED(call_verdict(1, UMBRELNIC_SUCCESS, T("anna")).refusal, 4);
    EXPECT_NOBODY(second);
    /* it waits itself now, under a ticket of its own */
    EXPECT_QUERY(second, T("AUTH PLAIN YmFy"), 2, T("bar"));
    EXPECT_REFUSED(call_verdict(1, UMBRELNIC_SUCCESS, T("anna")).refusal, 4);
    EXPECT_NOBODY(second);
    EXPECT_SAID(2, UMBRELNIC_SUCCESS, T("bert"), "235 2.7.0 Authentication succeeded");
    EXPECT_NAME(second, T("bert"));
    EXPECT_REFUSED(call_verdict(1, UMBRELNIC_SUCCESS, T("anna")).refusal, 4);
    EXPECT_NAME(second, T("bert"));
}

static void two_connections_wait(void) {
    make_server();
    uint64_t mill_lane = open_smtp();
    uint64_t brook_street = open_pop3();
    EXPECT_QUERY(brook_street, T("AUTH PLAIN Zm9v"), 1, T("foo"));
    EXPECT_QUERY(mill_lane, T("AUTH PLAIN YmFy"), 2, T("bar"));
    EXPECT_SAID(2, UMBRELNIC_SUCCESS, T("mill"), "235 2.7.0 Authentication succeeded");
    EXPECT_NAME(mill_lane, T("mill"));
    EXPECT_NOBODY(brook_street);
    EXPECT_REFUSED(call_line(brook_street, T("NOOP")).refusal, 3);
    EXPECT_SAID(1, UMBRELNIC_REJECTED, NO_OCTETS, "-ERR [AUTH] Credentials not accepted");
    EXPECT_NAME(mill_lane, T("mill"));
    EXPECT_NOBODY(brook_street);
}

static void a_used_ticket_is_void(void) {
    make_server();
    uint64_t connection = open_smtp();
    for (uint64_t verdict = UMBRELNIC_REJECTED; verdict <= UMBRELNIC_WEAK; verdict++) {
        uint64_t ticket = next_ticket();
        EXPECT_QUERY(connection, T("AUTH PLAIN Zm9v"), ticket, T("foo"));
        EXPECT_NUMBER(call_verdict(ticket, verdict, NO_OCTETS).refusal, 0);
        EXPECT_REFUSED(call_verdict(ticket, UMBRELNIC_SUCCESS, T("anna")).refusal, 4);
        EXPECT_NOBODY(connection);
    }
    sign_in(connection, T("anna"));
    EXPECT_REFUSED(call_verdict(5, UMBRELNIC_SUCCESS, T("bert")).refusal, 4);
    EXPECT_REFUSED(call_verdict(5, UMBRELNIC_REJECTED, NO_OCTETS).refusal, 4);
    EXPECT_NAME(connection, T("anna"));
}

/* Every connection of a full server under its own ticket, answered in another order. */
static void sixty_four_wait(void) {
    make_server();
    for (uint64_t i = 1; i <= 64; i++) {
        uint64_t connection = i % 2 == 0 ? open_smtp() : open_pop3();
        EXPECT_QUERY(connection, T("AUTH PLAIN Zm9v"), i, T("foo"));
    }
    for (uint64_t i = 0; i < 64; i++) {
        uint64_t ticket = i * 37 % 64 + 1;
        uint8_t name = (uint8_t)('!' + ticket);
        EXPECT_NUMBER(call_verdict(ticket, UMBRELNIC_SUCCESS, (struct text){&name, 1}).refusal, 0);
    }
    for (uint64_t i = 1; i <= 64; i++) {
        uint8_t name = (uint8_t)('!' + i);
        EXPECT_NAME(i, (struct text){&name, 1});
    }
}

/* Tickets, connections and slots are numbered apart: the connection 3 waits on ticket 2, the connection 2 on ticket 3. */
static void a_ticket_is_no_slot_and_no_connection(void) {
    EXPECT_MADE(0, 2);
    EXPECT_ADDED(T("PLAIN"), 1, 1);
    for (uint64_t i = 0; i < 4; i++) {
        EXPECT_OPENED(UMBRELNIC_POP3, 1, i);
    }
    EXPECT_QUERY(3, T("AUTH PLAIN Zm9v"), 2, T("foo"));
    EXPECT_QUERY(2, T("AUTH PLAIN Zm9v"), 3, T("foo"));
    EXPECT_REFUSED(call_verdict(0, UMBRELNIC_SUCCESS, T("anna")).refusal, 4);
    EXPECT_REFUSED(call_verdict(1, UMBRELNIC_SUCCESS, T("anna")).refusal, 4);
    EXPECT_SAID(2, UMBRELNIC_SUCCESS, T("anna"), "+OK Authenticated");
    EXPECT_NAME(3, T("anna"));
    EXPECT_NOBODY(2);
}

/* A closed connection's exchange does not go on in the next one. */
static void an_awaited_answer_ends_with_its_connection(void) {
    make_server();
    uint64_t first = open_smtp();
    EXPECT_REPLY(first, T("AUTH PLAIN"), "334 ");
    EXPECT_DONE(call_close(first));
    uint64_t second = open_smtp();
    EXPECT_FORWARD(second, T("Zm9v"));
    EXPECT_REFUSED(call_line(first, T("Zm9v")).refusal, 2);
    EXPECT_NOBODY(second);
}

static void close_leaves_the_others(void) {
    make_server();
    uint64_t connections[4];
    for (size_t i = 0; i < COUNT(connections); i++) {
        connections[i] = open_smtp();
    }
    sign_in(connections[0], T("anna"));
    EXPECT_START(connections[1], T("AUTH CRAM-MD5"), 2);
    EXPECT_REPLY(connections[2], T("AUTH PLAIN"), "334 ");
    EXPECT_DONE(call_close(connections[3]));
    EXPECT_NAME(connections[0], T("anna"));
    EXPECT_SAID(2, UMBRELNIC_CHALLENGE, T("foo"), "334 Zm9v");
    EXPECT_QUERY(connections[2], T("Zm9v"), 3, T("foo"));
    EXPECT_DONE(call_close(connections[0]));
    EXPECT_QUERY(connections[1], T("YmFy"), 4, T("bar"));
    EXPECT_SAID(3, UMBRELNIC_SUCCESS, T("cleo"), "235 2.7.0 Authentication succeeded");
    EXPECT_NAME(connections[2], T("cleo"));
}

int main(void) {
    static const struct test tests[] = {
        TEST(a_late_verdict_after_close),
        TEST(a_late_verdict_after_close_and_open),
        TEST(two_connections_wait),
        TEST(a_used_ticket_is_void),
        TEST(sixty_four_wait),
        TEST(a_ticket_is_no_slot_and_no_connection),
        TEST(an_awaited_answer_ends_with_its_connection),
        TEST(close_leaves_the_others),
    };
    return RUN_TESTS("tickets", tests);
}
