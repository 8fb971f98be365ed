/* How long a line may be, and what it may not hold: document 01's table of limits, "Length and forbidden octets are looked at first
   in every command", and "Both sides of each line". */
#include "check.h"

enum { SMTP_COMMAND = 510, SMTP_MAIL = 1010, POP3_COMMAND = 253, ANSWER = 12286 };

static uint64_t open_of(uint64_t profile) {
    make_server();
    return profile == UMBRELNIC_SMTP ? open_smtp() : open_pop3();
}

/* A beginning and letters, so many octets together. */
static struct text filled(struct text start, size_t size) {
    return joined(start, repeated(T("a"), size - start.size));
}

static void expect_limit(uint64_t profile, struct text start, size_t limit) {
    uint64_t connection = open_of(profile);
    EXPECT_FORWARD(connection, filled(start, limit - 1));
    EXPECT_FORWARD(connection, filled(start, limit));
    EXPECT_REPLY(connection, filled(start, limit + 1), hears[profile][NOT_UNDERSTOOD]);
    EXPECT_REPLY(connection, filled(start, limit + 2), hears[profile][NOT_UNDERSTOOD]);
    EXPECT_REPLY(connection, filled(start, 100000), hears[profile][NOT_UNDERSTOOD]);
    EXPECT_FORWARD(connection, T("NOOP"));
}

static void smtp_commands(void) {
    expect_limit(UMBRELNIC_SMTP, T("EHLO "), SMTP_COMMAND);
    expect_limit(UMBRELNIC_SMTP, T("HELO "), SMTP_COMMAND);
    expect_limit(UMBRELNIC_SMTP, T("RCPT "), SMTP_COMMAND);
    expect_limit(UMBRELNIC_SMTP, T(""), SMTP_COMMAND);
    expect_limit(UMBRELNIC_SMTP, T(" "), SMTP_COMMAND);
    expect_limit(UMBRELNIC_SMTP, T("USER "), SMTP_COMMAND);
    expect_limit(UMBRELNIC_SMTP, T("MAILX "), SMTP_COMMAND);
    expect_limit(UMBRELNIC_SMTP, T("MAIL\t"), SMTP_COMMAND);
    expect_limit(UMBRELNIC_SMTP, T(" MAIL FROM:<>"), SMTP_COMMAND);
}

static void pop3_commands(void) {
    expect_limit(UMBRELNIC_POP3, T("RETR "), POP3_COMMAND);
    expect_limit(UMBRELNIC_POP3, T(""), POP3_COMMAND);
    expect_limit(UMBRELNIC_POP3, T("EHLO "), POP3_COMMAND);
    expect_limit(UMBRELNIC_POP3, T("QUIT "), POP3_COMMAND);
    /* "as command" */
    expect_limit(UMBRELNIC_POP3, T("MAIL "), POP3_COMMAND);
    expect_limit(UMBRELNIC_POP3, T("MAIL FROM:<"), POP3_COMMAND);
}

/* A line that is in error otherwise is understood up to the same limit. */
static void expect_error_limit(uint64_t profile, struct text start, size_t limit, enum reply reply) {
    uint64_t connection = open_of(profile);
    EXPECT_REPLY(connection, filled(start, limit), hears[profile][reply]);
    EXPECT_REPLY(connection, filled(start, limit + 1), hears[profile][NOT_UNDERSTOOD]);
    EXPECT_REPLY(connection, filled(start, 100000), hears[profile][NOT_UNDERSTOOD]);
}

static void the_length_is_looked_at_first(void) {
    expect_error_limit(UMBRELNIC_SMTP, T("RSET "), SMTP_COMMAND, SYNTAX);
    expect_error_limit(UMBRELNIC_SMTP, T("QUIT "), SMTP_COMMAND, SYNTAX);
    expect_error_limit(UMBRELNIC_SMTP, T("AUTH "), SMTP_COMMAND, SYNTAX);
    expect_error_limit(UMBRELNIC_SMTP, T("MAIL "), SMTP_MAIL, SYNTAX);
    expect_error_limit(UMBRELNIC_SMTP, T("mail FROM:<"), SMTP_MAIL, SYNTAX);
    expect_error_limit(UMBRELNIC_POP3, T("USER "), POP3_COMMAND, WRONG_MOMENT);
    expect_error_limit(UMBRELNIC_POP3, T("PASS "), POP3_COMMAND, WRONG_MOMENT);
    expect_error_limit(UMBRELNIC_POP3, T("APOP "), POP3_COMMAND, WRONG_MOMENT);
    expect_error_limit(UMBRELNIC_POP3, T("AUTH "), POP3_COMMAND, SYNTAX);
}

/* ... before the wrong moment too */
static void a_long_line_at_the_wrong_moment(void) {
    uint64_t connection = open_of(UMBRELNIC_SMTP);
    sign_in(connection, T("anna"));
    EXPECT_MAIL(connection, T("MAIL FROM:<>"), UMBRELNIC_ABSENT);
    EXPECT_REPLY(connection, filled(T("AUTH "), SMTP_COMMAND), "503 5.5.1 Not permitted now");
    EXPECT_REPLY(connection, filled(T("AUTH "), SMTP_COMMAND + 1), "500 5.5.2 Line not understood");
    EXPECT_REPLY(connection, filled(T("MAIL "), SMTP_MAIL), "503 5.5.1 Not permitted now");
    EXPECT_REPLY(connection, filled(T("MAIL "), SMTP_MAIL + 1), "500 5.5.2 Line not understood");
}

static void mail_lines(void) {
    static const char *const starts[] = {"MAIL FROM:<> X=", "mail from:<> SUBMITTER=a@", "MAIL FROM:<> AUTH=a@"};
    for (size_t i = 0; i < COUNT(starts); i++) {
        struct text start = of_string(starts[i]);
        uint64_t connection = open_of(UMBRELNIC_SMTP);
        EXPECT_MAIL(connection, filled(start, SMTP_COMMAND + 1), UMBRELNIC_NULL);
        EXPECT_DONE(call_mail_ended(connection));
        EXPECT_MAIL(connection, filled(start, SMTP_MAIL), UMBRELNIC_NULL);
        EXPECT_DONE(call_mail_ended(connection));
        EXPECT_REPLY(connection, filled(start, SMTP_MAIL + 1), "500 5.5.2 Line not understood");
        EXPECT_REPLY(connection, filled(start, 100000), "500 5.5.2 Line not understood");
        /* nothing was opened */
        EXPECT_MAIL(connection, T("MAIL FROM:<>"), UMBRELNIC_NULL);
    }
}

static void the_longest_path_and_address(void) {
    uint64_t connection = open_of(UMBRELNIC_SMTP);
    sign_in(connection, T("anna"));
    EXPECT_MAIL(connection, joined(filled(T("MAIL FROM:<"), SMTP_MAIL - 1), T(">")), UMBRELNIC_ABSENT);
    EXPECT_DONE(call_mail_ended(connection));
    EXPECT_REPLY(connection, joined(filled(T("MAIL FROM:<"), SMTP_MAIL), T(">")), "500 5.5.2 Line not understood");
    EXPECT_ADDRESS(connection, filled(T("MAIL FROM:<> AUTH=a@"), SMTP_MAIL), filled(T("a@"), SMTP_MAIL - 18));
}

/* `AUTH PLAIN ` with 496 letters is 507, read; with 500 it is 511. On POP3, 240 pass, 244 do not. */
static void initial_responses(void) {
    for (uint64_t profile = 0; profile < 2; profile++) {
        size_t groups = profile == UMBRELNIC_SMTP ? 124 : 60;
        uint64_t connection = open_of(profile);
        EXPECT_REPLY(connection, joined(T("AUTH PLAIN "), repeated(T("Zm9v"), groups + 1)), hears[profile][NOT_UNDERSTOOD]);
        EXPECT_QUERY(connection, joined(T("AUTH PLAIN "), repeated(T("Zm9v"), groups)), 1, repeated(T("foo"), groups));
    }
}

/* 12,284 octets give 9,213; 12,286 fail as base64; 12,287 are too long. */
static void answers(void) {
    static const struct {
        size_t size;
        enum reply reply;
    } others[] = {
        {12283, SYNTAX},          {12285, SYNTAX},          {12286, SYNTAX},          {12287, ANSWER_TOO_LONG},
        {12288, ANSWER_TOO_LONG}, {12289, ANSWER_TOO_LONG}, {65536, ANSWER_TOO_LONG}, {100000, ANSWER_TOO_LONG},
    };
    for (uint64_t profile = 0; profile < 2; profile++) {
        uint64_t connection = open_of(profile);
        for (size_t i = 0; i < COUNT(others); i++) {
            EXPECT_REPLY(connection, T("AUTH PLAIN"), hears[profile][EMPTY_CHALLENGE]);
            EXPECT_REPLY(connection, repeated(T("A"), others[i].size), hears[profile][others[i].reply]);
        }
        EXPECT_REPLY(connection, T("AUTH PLAIN"), hears[profile][EMPTY_CHALLENGE]);
        EXPECT_QUERY(connection, repeated(T("Zm9v"), 3071), 1, repeated(T("foo"), 3071));
        EXPECT_NUMBER(handed.size, 9213);
    }
}

/* A too long answer is too long whatever it holds. */
static void long_answers_of_other_octets(void) {
    static const char *const octets[] = {"*", "\r", "\n", " ", "=", "\xff"};
    for (uint64_t profile = 0; profile < 2; profile++) {
        uint64_t connection = open_of(profile);
        for (size_t i = 0; i < COUNT(octets); i++) {
            EXPECT_REPLY(connection, T("AUTH PLAIN"), hears[profile][EMPTY_CHALLENGE]);
            EXPECT_REPLY(connection, repeated(of_string(octets[i]), ANSWER + 1), hears[profile][ANSWER_TOO_LONG]);
            EXPECT_REPLY(connection, T("AUTH PLAIN"), hears[profile][EMPTY_CHALLENGE]);
            EXPECT_REPLY(connection, repeated(of_string(octets[i]), ANSWER), hears[profile][SYNTAX]);
        }
    }
}

/* --- forbidden octets --- */

static const struct text forbidden[] = {{(const uint8_t *)"\0", 1}, {(const uint8_t *)"\r", 1}, {(const uint8_t *)"\n", 1}};

static void expect_forbidden(uint64_t profile, struct text before, struct text after) {
    for (size_t i = 0; i < COUNT(forbidden); i++) {
        uint64_t connection = open_of(profile);
        EXPECT_REPLY(connection, joined(joined(before, forbidden[i]), after), hears[profile][NOT_UNDERSTOOD]);
        /* and it had no effect: AUTH is still for this moment */
        EXPECT_REPLY(connection, T("AUTH PLAIN"), hears[profile][EMPTY_CHALLENGE]);
    }
}

static void forbidden_octets_in_commands(void) {
    for (uint64_t profile = 0; profile < 2; profile++) {
        expect_forbidden(profile, T(""), T(""));
        expect_forbidden(profile, T("NOOP"), T(""));
        expect_forbidden(profile, T(""), T("NOOP"));
        expect_forbidden(profile, T("NOOP a"), T("b"));
        expect_forbidden(profile, T("HELO a"), T(""));
        expect_forbidden(profile, T("EHLO "), T(""));
        expect_forbidden(profile, T("RSET"), T(""));
        expect_forbidden(profile, T("QUIT"), T(""));
        expect_forbidden(profile, T("USER a"), T(""));
        expect_forbidden(profile, T("PASS"), T(" a"));
        expect_forbidden(profile, T("APOP a"), T("b"));
        expect_forbidden(profile, T("AUTH"), T(" PLAIN"));
        expect_forbidden(profile, T("AUTH PLAIN"), T(""));
        expect_forbidden(profile, T("AUTH PLAIN Zm9v"), T(""));
        expect_forbidden(profile, T("AUTH PLAIN Zm9"), T("v"));
        expect_forbidden(profile, T("MAIL FROM:<a"), T("b>"));
        expect_forbidden(profile, T("MAIL FROM:<>"), T(""));
        expect_forbidden(profile, T("MAIL FROM:<> X"), T(""));
        expect_forbidden(profile, T("MAIL FROM:<> AUTH=a@b"), T(" X"));
        expect_forbidden(profile, repeated(T("a"), 250), T(""));
    }
}

static void forbidden_octets_at_the_wrong_moment(void) {
    for (size_t i = 0; i < COUNT(forbidden); i++) {
        uint64_t connection = open_of(UMBRELNIC_SMTP);
        sign_in(connection, T("anna"));
        EXPECT_MAIL(connection, T("MAIL FROM:<>"), UMBRELNIC_ABSENT);
        EXPECT_REPLY(connection, joined(T("AUTH PLAIN"), forbidden[i]), "500 5.5.2 Line not understood");
        EXPECT_REPLY(connection, joined(T("MAIL FROM:<>"), forbidden[i]), "500 5.5.2 Line not understood");
    }
}

/* In an exchange they are "not base64". */
static void forbidden_octets_in_answers(void) {
    for (uint64_t profile = 0; profile < 2; profile++) {
        uint64_t connection = open_of(profile);
        for (size_t i = 0; i < COUNT(forbidden); i++) {
            EXPECT_REPLY(connection, T("AUTH PLAIN"), hears[profile][EMPTY_CHALLENGE]);
            EXPECT_REPLY(connection, joined(T("Zm9"), forbidden[i]), hears[profile][SYNTAX]);
            EXPECT_REPLY(connection, T("AUTH PLAIN"), hears[profile][EMPTY_CHALLENGE]);
            EXPECT_REPLY(connection, forbidden[i], hears[profile][SYNTAX]);
            EXPECT_REPLY(connection, T("AUTH PLAIN"), hears[profile][EMPTY_CHALLENGE]);
            EXPECT_REPLY(connection, joined(T("*"), forbidden[i]), hears[profile][SYNTAX]);
        }
    }
}

/* All other octets stand in a command: FF (0C) too, which RFC 2554 prints for CR. */
static void every_octet_in_a_command(void) {
    for (uint64_t profile = 0; profile < 2; profile++) {
        uint64_t connection = open_of(profile);
        for (int octet = 0; octet < 256; octet++) {
            uint8_t one = (uint8_t)octet;
            struct text line = joined(T("NOOP "), (struct text){&one, 1});
            if (octet == 0 || octet == 0x0a || octet == 0x0d) {
                EXPECT_REPLY(connection, line, hears[profile][NOT_UNDERSTOOD]);
            } else {
                EXPECT_FORWARD(connection, line);
            }
        }
    }
}

/* An empty line, lent as NULL or not (check.h does both). */
static void empty_lines(void) {
    for (uint64_t profile = 0; profile < 2; profile++) {
        uint64_t connection = open_of(profile);
        for (int i = 0; i < 8; i++) {
            EXPECT_FORWARD(connection, NO_OCTETS);
        }
        EXPECT_REPLY(connection, T("AUTH PLAIN"), hears[profile][EMPTY_CHALLENGE]);
        for (uint64_t ticket = 1; ticket <= 8; ticket++) {
            EXPECT_QUERY(connection, NO_OCTETS, ticket, NO_OCTETS);
            EXPECT_SAID(ticket, UMBRELNIC_CHALLENGE, NO_OCTETS, hears[profile][EMPTY_CHALLENGE]);
        }
    }
}

int main(void) {
    static const struct test tests[] = {
        TEST(smtp_commands),
        TEST(pop3_commands),
        TEST(the_length_is_looked_at_first),
        TEST(a_long_line_at_the_wrong_moment),
        TEST(mail_lines),
        TEST(the_longest_path_and_address),
        TEST(initial_responses),
        TEST(answers),
        TEST(long_answers_of_other_octets),
        TEST(forbidden_octets_in_commands),
        TEST(forbidden_octets_at_the_wrong_moment),
        TEST(forbidden_octets_in_answers),
        TEST(every_octet_in_a_command),
        TEST(empty_lines),
    };
    return RUN_TESTS("limits", tests);
}
