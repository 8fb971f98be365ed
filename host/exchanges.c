/* Exchanges: answers, how one ends, what it leaves, and "An exchange sends at most 16 challenges, the empty first one included". */
#include "check.h"

static uint64_t open_of(uint64_t profile) {
    make_server();
    return profile == UMBRELNIC_SMTP ? open_smtp() : open_pop3();
}

/* In an exchange no line is a command. */
static void commands_are_no_commands_in_an_exchange(void) {
    static const char *const bad[] = {
        "EHLO a", "MAIL FROM:<>", "AUTH PLAIN", "AUTH PLAIN Zm9v", "RSET ", "USER a", "HELO a", "NOOP\t",
    };
    for (uint64_t profile = 0; profile < 2; profile++) {
        uint64_t connection = open_of(profile);
        for (size_t i = 0; i < COUNT(bad); i++) {
            EXPECT_REPLY(connection, T("AUTH PLAIN"), hears[profile][EMPTY_CHALLENGE]);
            EXPECT_REPLY(connection, of_string(bad[i]), hears[profile][SYNTAX]);
        }
        /* none of them did anything else */
        EXPECT_REPLY(connection, T("AUTH PLAIN"), hears[profile][EMPTY_CHALLENGE]);
    }
}

/* Four letters are three octets, whatever they spell: QUIT is 010000 010100 001000 010011, or 41 42 13. */
static void verbs_are_octets_in_an_exchange(void) {
    static const struct {
        const char *line;
        const char *octets;
    } verbs[] = {
        {"QUIT", "\x41\x42\x13"}, {"AUTH", "\x01\x44\xc7"}, {"RSET", "\x45\x21\x13"}, {"MAIL", "\x30\x02\x0b"}, {"NOOP", "\x34\xe3\x8f"},
    };
    for (uint64_t profile = 0; profile < 2; profile++) {
        uint64_t connection = open_of(profile);
        EXPECT_REPLY(connection, T("AUTH PLAIN"), hears[profile][EMPTY_CHALLENGE]);
        for (size_t i = 0; i < COUNT(verbs); i++) {
            EXPECT_QUERY(connection, of_string(verbs[i].line), i + 1, of_string(verbs[i].octets));
            EXPECT_SAID(i + 1, UMBRELNIC_CHALLENGE, NO_OCTETS, hears[profile][EMPTY_CHALLENGE]);
        }
    }
}

/* "*" is one octet. */
static void only_a_star_cancels(void) {
    static const char *const others[] = {"**", "* ", " *", "*=", "****", "=", "==", "=*"};
    for (uint64_t profile = 0; profile < 2; profile++) {
        uint64_t connection = open_of(profile);
        for (size_t i = 0; i < COUNT(others); i++) {
            EXPECT_REPLY(connection, T("AUTH PLAIN"), hears[profile][EMPTY_CHALLENGE]);
            EXPECT_REPLY(connection, of_string(others[i]), hears[profile][SYNTAX]);
        }
        EXPECT_REPLY(connection, T("AUTH PLAIN"), hears[profile][EMPTY_CHALLENGE]);
        EXPECT_REPLY(connection, T("*"), hears[profile][CANCELLED]);
        /* outside of an exchange it is a verb */
        EXPECT_FORWARD(connection, T("*"));
    }
}

/* "The first three end the exchange." */
static void each_bad_answer_ends_the_exchange(void) {
    for (uint64_t profile = 0; profile < 2; profile++) {
        struct text bad[] = {repeated(T("A"), 12287), T("*"), T("Zm9")};
        for (size_t i = 0; i < COUNT(bad); i++) {
            uint64_t connection = open_of(profile);
            EXPECT_START(connection, T("AUTH CRAM-MD5"), 1);
            EXPECT_SAID(1, UMBRELNIC_CHALLENGE, NO_OCTETS, hears[profile][EMPTY_CHALLENGE]);
            EXPECT_NUMBER(call_line(connection, bad[i]).kind, UMBRELNIC_REPLY);
            EXPECT_FORWARD(connection, T("NOOP"));
            EXPECT_NUMBER(slot_of(connection)[PHASE], IDLE);
            EXPECT_NUMBER(slot_of(connection)[SENT], 0);
            EXPECT_NOBODY(connection);
        }
    }
}

/* "A failed exchange leaves greeting, transaction and name as they were before AUTH." */
static void a_failed_exchange_leaves_the_greeting(void) {
    uint64_t connection = open_of(UMBRELNIC_SMTP);
    for (uint64_t verdict = UMBRELNIC_REJECTED; verdict <= UMBRELNIC_WEAK; verdict++) {
        uint64_t ticket = next_ticket();
        EXPECT_QUERY(connection, T("AUTH PLAIN Zm9v"), ticket, T("foo"));
        EXPECT_NUMBER(call_verdict(ticket, verdict, NO_OCTETS).refusal, 0);
        EXPECT_NOBODY(connection);
        EXPECT_NUMBER(slot_of(connection)[PHASE], IDLE);
        EXPECT_NUMBER(slot_of(connection)[GREETED], 1);
        EXPECT_NUMBER(slot_of(connection)[TRANSACTION], 0);
    }
    EXPECT_REPLY(connection, T("AUTH PLAIN"), "334 ");
    EXPECT_REPLY(connection, T("*"), "501 5.7.0 Authentication cancelled");
    EXPECT_MAIL(connection, T("MAIL FROM:<>"), UMBRELNIC_NULL);
}

/* Success adds the name and nothing else. */
static void success_leaves_the_greeting(void) {
    uint64_t connection = open_of(UMBRELNIC_SMTP);
    sign_in(connection, T("anna"));
    EXPECT_NUMBER(slot_of(connection)[GREETED], 1);
    EXPECT_NUMBER(slot_of(connection)[TRANSACTION], 0);
    EXPECT_NUMBER(slot_of(connection)[PROTECTED], 1);
    EXPECT_MAIL(connection, T("MAIL FROM:<>"), UMBRELNIC_ABSENT);
}

/* Every verdict may answer every query, one that only starts too. */
static void verdicts_on_a_start(void) {
    for (uint64_t profile = 0; profile < 2; profile++) {
        uint64_t connection = open_of(profile);
        EXPECT_START(connection, T("AUTH CRAM-MD5"), 1);
        EXPECT_SAID(1, UMBRELNIC_REJECTED, NO_OCTETS, hears[profile][REJECTED]);
        EXPECT_START(connection, T("AUTH CRAM-MD5"), 2);
        EXPECT_SAID(2, UMBRELNIC_SUCCESS, T("anna"), hears[profile][SUCCEEDED]);
        EXPECT_NAME(connection, T("anna"));
    }
}

/* A start and an answer of no octets are told apart by `starts` alone. */
static void a_start_and_an_empty_answer(void) {
    uint64_t connection = open_of(UMBRELNIC_SMTP);
    EXPECT_START(connection, T("AUTH CRAM-MD5"), 1);
    EXPECT_SAID(1, UMBRELNIC_CHALLENGE, NO_OCTETS, "334 ");
    EXPECT_QUERY(connection, T(""), 2, NO_OCTETS);
    EXPECT_SAID(2, UMBRELNIC_REJECTED, NO_OCTETS, "535 5.7.8 Credentials not accepted");
    EXPECT_QUERY(connection, T("AUTH PLAIN ="), 3, NO_OCTETS);
}

/* So many challenges are sent by verdicts, and the next one gets the temporary reply. */
static void expect_challenges(uint64_t profile, uint64_t connection, size_t count) {
    for (size_t i = 0; i < count; i++) {
        uint64_t ticket = next_ticket() - 1;
        EXPECT_SAID(ticket, UMBRELNIC_CHALLENGE, T("foo"), profile == UMBRELNIC_SMTP ? "334 Zm9v" : "+ Zm9v");
        EXPECT_QUERY(connection, T("Zm9v"), ticket + 1, T("foo"));
    }
    uint64_t ticket = next_ticket() - 1;
    EXPECT_NUMBER(slot_of(connection)[SENT], 16);
    /* data that no challenge can have is refused before it is counted */
    EXPECT_REFUSED(call_verdict(ticket, UMBRELNIC_CHALLENGE, repeated(T("a"), 9211)).refusal, 5);
    EXPECT_SAID(ticket, UMBRELNIC_CHALLENGE, T("foo"), hears[profile][TEMPORARY]);
    /* it ended: the ticket is used up, and lines are commands */
    EXPECT_REFUSED(call_verdict(ticket, UMBRELNIC_SUCCESS, T("anna")).refusal, 4);
    EXPECT_NOBODY(connection);
    EXPECT_FORWARD(connection, T("NOOP"));
    EXPECT_NUMBER(slot_of(connection)[PHASE], IDLE);
    EXPECT_NUMBER(slot_of(connection)[SENT], 0);
}

static void challenges_after_an_initial_response(void) {
    for (uint64_t profile = 0; profile < 2; profile++) {
        uint64_t connection = open_of(profile);
        EXPECT_QUERY(connection, T("AUTH PLAIN Zm9v"), 1, T("foo"));
        expect_challenges(profile, connection, 16);
        /* the next exchange has all of its own */
        EXPECT_QUERY(connection, T("AUTH PLAIN ="), next_ticket(), NO_OCTETS);
        expect_challenges(profile, connection, 16);
    }
}

static void challenges_after_a_start(void) {
    for (uint64_t profile = 0; profile < 2; profile++) {
        uint64_t connection = open_of(profile);
        EXPECT_START(connection, T("AUTH CRAM-MD5"), 1);
        expect_challenges(profile, connection, 16);
    }
}

static void challenges_after_the_empty_one(void) {
    for (uint64_t profile = 0; profile < 2; profile++) {
        uint64_t connection = open_of(profile);
        EXPECT_REPLY(connection, T("AUTH PLAIN"), hears[profile][EMPTY_CHALLENGE]);
        EXPECT_QUERY(connection, T("Zm9v"), 1, T("foo"));
        expect_challenges(profile, connection, 15);
    }
}

/* After 16 challenges every other verdict is as ever. */
static void success_after_sixteen_challenges(void) {
    uint64_t connection = open_of(UMBRELNIC_SMTP);
    EXPECT_START(connection, T("AUTH CRAM-MD5"), 1);
    for (uint64_t ticket = 1; ticket <= 16; ticket++) {
        EXPECT_SAID(ticket, UMBRELNIC_CHALLENGE, NO_OCTETS, "334 ");
        EXPECT_QUERY(connection, T("Zm9v"), ticket + 1, T("foo"));
    }
    EXPECT_SAID(17, UMBRELNIC_SUCCESS, T("anna"), "235 2.7.0 Authentication succeeded");
    EXPECT_NAME(connection, T("anna"));
    EXPECT_NUMBER(slot_of(connection)[SENT], 0);
}

/* Sessions that calls do not lead to are stepped like any other: a transaction in mid-exchange, a greeted POP3 one. */
static void other_sessions(void) {
    uint64_t connection = open_of(UMBRELNIC_SMTP);
    EXPECT_REPLY(connection, T("AUTH PLAIN"), "334 ");
    slot_of(connection)[TRANSACTION] = 1;
    EXPECT_QUERY(connection, T("Zm9v"), 1, T("foo"));
    EXPECT_NUMBER(slot_of(connection)[TRANSACTION], 1);
    EXPECT_DONE(call_mail_ended(connection));
    EXPECT_NUMBER(slot_of(connection)[TRANSACTION], 0);
    EXPECT_REFUSED(call_line(connection, T("NOOP")).refusal, 3);
    slot_of(connection)[SENT] = 0;
    slot_of(connection)[GREETED] = 0;
    EXPECT_SAID(1, UMBRELNIC_CHALLENGE, T("foo"), "334 Zm9v");
    EXPECT_NUMBER(slot_of(connection)[SENT], 1);
    connection = open_of(UMBRELNIC_POP3);
    slot_of(connection)[GREETED] = 1;
    slot_of(connection)[TRANSACTION] = 1;
    EXPECT_FORWARD(connection, T("RSET"));
    EXPECT_FORWARD(connection, T("EHLO a"));
    EXPECT_NUMBER(slot_of(connection)[TRANSACTION], 1);
    EXPECT_FORWARD(connection, T("MAIL FROM:<>"));
    EXPECT_REPLY(connection, T("AUTH PLAIN"), "+ ");
    EXPECT_DONE(call_mail_ended(connection));
    EXPECT_NUMBER(slot_of(connection)[TRANSACTION], 0);
    EXPECT_NUMBER(slot_of(connection)[GREETED], 1);
    EXPECT_NUMBER(slot_of(connection)[PHASE], AWAITING);
}

int main(void) {
    static const struct test tests[] = {
        TEST(commands_are_no_commands_in_an_exchange),
        TEST(verbs_are_octets_in_an_exchange),
        TEST(only_a_star_cancels),
        TEST(each_bad_answer_ends_the_exchange),
        TEST(a_failed_exchange_leaves_the_greeting),
        TEST(success_leaves_the_greeting),
        TEST(verdicts_on_a_start),
        TEST(a_start_and_an_empty_answer),
        TEST(challenges_after_an_initial_response),
        TEST(challenges_after_a_start),
        TEST(challenges_after_the_empty_one),
        TEST(success_after_sixteen_challenges),
        TEST(other_sessions),
    };
    return RUN_TESTS("exchanges", tests);
}
