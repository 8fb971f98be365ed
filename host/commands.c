/* What each command does where no exchange runs, and the order of AUTH's checks. */
#include "check.h"
#include <limits.h>
#include <string.h>

/* Whether AUTH is for this moment: greeted, in no transaction, not signed in. The exchange is ended again. */
static void expect_moment(uint64_t connection, bool right) {
    if (!right) {
        expect_reply(connection, T("AUTH PLAIN"), "503 5.5.1 Not permitted now");
        return;
    }
    expect_reply(connection, T("AUTH PLAIN"), "334 ");
    expect_reply(connection, T("*"), "501 5.7.0 Authentication cancelled");
}
#define EXPECT_MOMENT(...) (AT, expect_moment(__VA_ARGS__))

static void ehlo_greets_and_helo_does_not(void) {
    make_server();
    EXPECT_OPENED(UMBRELNIC_SMTP, 1, 1);
    EXPECT_MOMENT(1, false);
    EXPECT_FORWARD(1, T("HELO a"));
    EXPECT_MOMENT(1, false);
    EXPECT_FORWARD(1, T("EHLO a"));
    EXPECT_MOMENT(1, true);
    EXPECT_FORWARD(1, T("EHLO a"));
    EXPECT_MOMENT(1, true);
    EXPECT_FORWARD(1, T("HELO a"));
    EXPECT_MOMENT(1, false);
    EXPECT_FORWARD(1, T("eHlO  "));
    EXPECT_MOMENT(1, true);
}

/* "need a space and at least one octet more (else 501 5.5.2)", and then nothing changes. */
static void greetings_need_an_argument(void) {
    make_server();
    EXPECT_OPENED(UMBRELNIC_SMTP, 1, 1);
    EXPECT_REPLY(1, T("EHLO"), "501 5.5.2 Syntax error");
    EXPECT_REPLY(1, T("EHLO "), "501 5.5.2 Syntax error");
    EXPECT_MOMENT(1, false);
    EXPECT_FORWARD(1, T("EHLO a"));
    EXPECT_REPLY(1, T("HELO"), "501 5.5.2 Syntax error");
    EXPECT_REPLY(1, T("HELO "), "501 5.5.2 Syntax error");
    EXPECT_MOMENT(1, true);
    EXPECT_MAIL(1, T("MAIL FROM:<>"), UMBRELNIC_NULL);
    EXPECT_REPLY(1, T("EHLO "), "501 5.5.2 Syntax error");
    EXPECT_REPLY(1, T("helo"), "501 5.5.2 Syntax error");
    EXPECT_REPLY(1, T("RSET x"), "501 5.5.2 Syntax error");
    EXPECT_REPLY(1, T("MAIL FROM:<>"), "503 5.5.1 Not permitted now");
    EXPECT_FORWARD(1, T("HELO  "));
    EXPECT_MAIL(1, T("MAIL FROM:<>"), UMBRELNIC_NULL);
}

/* Whether a transaction is open, by what MAIL hears; it is open afterwards. */
static void expect_transaction(uint64_t connection, bool open) {
    if (open) {
        expect_reply(connection, T("MAIL FROM:<>"), "503 5.5.1 Not permitted now");
    } else {
        expect_mail(connection, T("MAIL FROM:<>"), UMBRELNIC_NULL);
    }
}
#define EXPECT_TRANSACTION(...) (AT, expect_transaction(__VA_ARGS__))

static void what_ends_a_transaction(void) {
    make_server();
    uint64_t connection = open_smtp();
    EXPECT_TRANSACTION(connection, false);
    EXPECT_MOMENT(connection, false);
    EXPECT_FORWARD(connection, T("RSET"));
    EXPECT_TRANSACTION(connection, false);
    EXPECT_FORWARD(connection, T("EHLO a"));
    EXPECT_TRANSACTION(connection, false);
    EXPECT_FORWARD(connection, T("HELO a"));
    EXPECT_TRANSACTION(connection, false);
    EXPECT_DONE(call_mail_ended(connection));
    EXPECT_TRANSACTION(connection, false);
    EXPECT_FORWARD(connection, T("rset"));
    EXPECT_DONE(call_mail_ended(connection));
    EXPECT_DONE(call_mail_ended(connection));
    EXPECT_TRANSACTION(connection, false);
}

static void what_ends_none(void) {
    static const char *const lines[] = {"QUIT", "NOOP", "RCPT TO:<a>", "DATA", "BDAT 5 LAST", "VRFY a", "STARTTLS", "", " RSET",
                                        "RSET\t", "RSETX", "RSE", "QUIT\t", "EHLO\ta", "EHLOX a", "HELO\ta", "RSET\x0c"};
    make_server();
    uint64_t connection = open_smtp();
    EXPECT_TRANSACTION(connection, false);
    for (size_t i = 0; i < COUNT(lines); i++) {
        EXPECT_FORWARD(connection, of_string(lines[i]));
        EXPECT_TRANSACTION(connection, true);
    }
}

static void rset_and_quit_take_nothing(void) {
    static const char *const lines[] = {"RSET ", "RSET x", "rset  ", "QUIT ", "QUIT x", "quit ?"};
    make_server();
    uint64_t connection = open_smtp();
    EXPECT_TRANSACTION(connection, false);
    for (size_t i = 0; i < COUNT(lines); i++) {
        EXPECT_REPLY(connection, of_string(lines[i]), "501 5.5.2 Syntax error");
        EXPECT_TRANSACTION(connection, true);
    }
    EXPECT_FORWARD(connection, T("QuIt"));
    EXPECT_FORWARD(connection, T("rSeT"));
    EXPECT_MOMENT(connection, true);
}

/* "All other verbs are passed on": verbs end at a space or the line's end, and at nothing else. */
static void other_verbs_on_smtp(void) {
    static const char *const lines[] = {
        "", " ", "A", "AUT", "AUTHX PLAIN", "AUTH\tPLAIN", " AUTH PLAIN", "AUTH=PLAIN", "MAIL\tFROM:<>", "MAILFROM:<>",
        "MAI FROM:<>", "USER a", "PASS a", "APOP a b", "USER", "*", "=", "Zm9v", "\xff\xfe", "AUTH\x0c",
        "\x41\x55\x54\xc8 PLAIN", "E\x88LO a", "QUI", "@UTH PLAIN", "[UTH", "aUTh\x01",
    };
    make_server();
    uint64_t connection = open_smtp();
    for (size_t i = 0; i < COUNT(lines); i++) {
        EXPECT_FORWARD(connection, of_string(lines[i]));
        EXPECT_MOMENT(connection, true);
    }
}

/* On POP3 three verbs are never for this moment, and the rest but AUTH is passed on unread. */
static void verbs_on_pop3(void) {
    static const char *const barred[] = {
        "USER", "USER anna", "user anna", "USER ", "PASS", "PASS x y", "pAsS", "APOP", "APOP a b", "aPOP  ",
    };
    static const char *const others[] = {
        "USERS", "PASSX a", "APO a", "USER\ta", " USER a", "EHLO", "EHLO ", "HELO", "RSET ", "QUIT x", "MAIL", "MAIL FROM:<>",
        "MAIL FROM:<> AUTH=a@b", "MAIL FROM:<> AUTH=a@b", "STAT", "CAPA", "STLS", "AUTHX", "",
    };
    make_server();
    uint64_t connection = open_pop3();
    for (int signed_in = 0; signed_in <= 1; signed_in++) {
        for (size_t i = 0; i < COUNT(barred); i++) {
            EXPECT_REPLY(connection, of_string(barred[i]), "-ERR Not permitted now");
        }
        for (size_t i = 0; i < COUNT(others); i++) {
            EXPECT_FORWARD(connection, of_string(others[i]));
        }
        if (signed_in == 0) {
            sign_in(connection, T("anna"));
        }
    }
    EXPECT_NAME(connection, T("anna"));
}

static void mail_ended_on_pop3_changes_nothing(void) {
    make_server();
    uint64_t connection = open_pop3();
    EXPECT_DONE(call_mail_ended(connection));
    sign_in(connection, T("anna"));
    EXPECT_DONE(call_mail_ended(connection));
    EXPECT_NAME(connection, T("anna"));
}

/* A name stays until close. */
static void who_is_signed_in_stays(void) {
    static const char *const lines[] = {"EHLO b", "HELO b", "RSET", "QUIT", "NOOP", "EHLO b"};
    make_server();
    uint64_t connection = open_smtp();
    sign_in(connection, T("anna"));
    for (size_t i = 0; i < COUNT(lines); i++) {
        EXPECT_FORWARD(connection, of_string(lines[i]));
        EXPECT_NAME(connection, T("anna"));
        EXPECT_REPLY(connection, T("AUTH PLAIN Zm9v"), "503 5.5.1 Not permitted now");
    }
    EXPECT_MAIL(connection, T("MAIL FROM:<>"), UMBRELNIC_ABSENT);
    EXPECT_DONE(call_mail_ended(connection));
    EXPECT_NAME(connection, T("anna"));
}

/* --- AUTH: length or forbidden octet; wrong moment; grammar; available; allowed --- */

/* The moment comes before the grammar. */
static void auth_at_the_wrong_moment(void) {
    static const char *const lines[] = {
        "AUTH", "AUTH ", "AUTH plain", "AUTH PLAIN !", "AUTH NOSUCH", "AUTH CRAM-MD5 Zm9v", "AUTH  ", "auth PLAIN Zm9v",
    };
    make_server();
    EXPECT_OPENED(UMBRELNIC_SMTP, 1, 1);
    uint64_t in_transaction = open_smtp();
    EXPECT_MAIL(in_transaction, T("MAIL FROM:<>"), UMBRELNIC_NULL);
    uint64_t smtp = open_smtp();
    uint64_t pop3 = open_pop3();
    sign_in(smtp, T("anna"));
    sign_in(pop3, T("anna"));
    for (size_t i = 0; i < COUNT(lines); i++) {
        struct text line = of_string(lines[i]);
        EXPECT_REPLY(1, line, "503 5.5.1 Not permitted now");
        EXPECT_REPLY(in_transaction, line, "503 5.5.1 Not permitted now");
        EXPECT_REPLY(smtp, line, "503 5.5.1 Not permitted now");
        EXPECT_REPLY(pop3, line, "-ERR Not permitted now");
    }
}

static void expect_syntax_error(struct text line) {
    for (uint64_t profile = 0; profile < 2; profile++) {
        make_server();
        uint64_t connection = profile == UMBRELNIC_SMTP ? open_smtp() : open_pop3();
        EXPECT_REPLY(connection, line, hears[profile][SYNTAX]);
        EXPECT_REPLY(connection, T("AUTH PLAIN"), hears[profile][EMPTY_CHALLENGE]);
    }
}

static void auth_grammar(void) {
    static const char *const lines[] = {
        "AUTH", "auth", "AUTH ", "AUTH  ", "AUTH  PLAIN", "AUTH PLAIN ", "AUTH PLAIN  ", "AUTH PLAIN  Zm9v", "AUTH PLAIN Zm9v ",
        "AUTH PLAIN Zm9v Zm9v", "AUTH PLAIN Zm9v =", "AUTH PLAIN = ", "AUTH PLAIN ==", "AUTH PLAIN =A", "AUTH PLAIN =AAA",
        "AUTH PLAIN *", "AUTH plain.", "AUTH PLAIN. Zm9v", "AUTH plain ", "AUTH PLAIN\tZm9v", "AUTH ABCDEFGHIJKLMNOPQRSTU",
        "AUTH abcdefghijklmnopqrstu", "AUTH ABCDEFGHIJKLMNOPQRSTu Zm9v",
        "AUTH *", "AUTH =", "AUTH \xff", "AUTH PLAIN Zm9", "AUTH PLAIN Zm9vZ", "AUTH PLAIN Z", "AUTH PLAIN Zh==",
        "AUTH PLAIN Zm9=", "AUTH PLAIN ====", "AUTH PLAIN Zm9v====",
        "AUTH PLAIN Zg==Zm9v", "AUTH PLAIN Zm9v\tZm9v", "AUTH PLAIN -m9v", "AUTH PLAIN _m9v", "AUTH PLAIN AAA=BBBB",
        /* base64 is part of the grammar, and comes before the mechanism */
        "AUTH NOSUCH !", "AUTH nosuch !", "AUTH NOSUCH ", "AUTH CRAM-MD5 Zh==", "AUTH CRAM-MD5 ", "AUTH cram-md5 Zh==",
    };
    for (size_t i = 0; i < COUNT(lines); i++) {
        expect_syntax_error(of_string(lines[i]));
    }
}

static void auth_without_a_mechanism_of_its_name(void) {
    static const char *const lines[] = {
        "AUTH NOSUCH", "AUTH NOSUCH Zm9v", "AUTH NOSUCH =", "AUTH PLAI", "AUTH PLAINS", "AUTH P", "AUTH CRAM-MD",
        "AUTH CRAM-MD51 Zm9v", "AUTH ABCDEFGHIJKLMNOPQRST", "AUTH -", "AUTH _ Zm9v", "auth NOSUCH",
        "AUTH nosuch", "AUTH NoSuch Zm9v", "AUTH nosuch =", "AUTH plai", "AUTH plains", "AUTH cram-md51", "AUTH abcdefghijklmnopqrst", "AUTH z",
    };
    make_server();
    uint64_t smtp = open_smtp();
    uint64_t pop3 = open_pop3();
    for (size_t i = 0; i < COUNT(lines); i++) {
        EXPECT_REPLY(smtp, of_string(lines[i]), "504 5.5.4 Mechanism not available");
        EXPECT_REPLY(pop3, of_string(lines[i]), "-ERR Mechanism not available");
    }
}

/* An AUTH line with this name, and after it the text. */
static struct text auth_line(struct text name, struct text after) {
    return joined(joined(T("AUTH "), name), after);
}

/* Under this spelling PLAIN and CRAM-MD5 are what make_server has added: with the one the client speaks first, with the other the server. */
static void expect_found(uint64_t profile, uint64_t connection, struct text name, bool client_first) {
    uint64_t ticket = next_ticket();
    if (client_first) {
        EXPECT_REPLY(connection, auth_line(name, NO_OCTETS), hears[profile][EMPTY_CHALLENGE]);
        EXPECT_REPLY(connection, T("*"), hears[profile][CANCELLED]);
        EXPECT_QUERY(connection, auth_line(name, T(" Zm9v")), ticket, T("foo"));
    } else {
        EXPECT_REPLY(connection, auth_line(name, T(" Zm9v")), hears[profile][NO_INITIAL]);
        EXPECT_START(connection, auth_line(name, NO_OCTETS), ticket);
    }
    EXPECT_SAID(ticket, UMBRELNIC_REJECTED, NO_OCTETS, hears[profile][REJECTED]);
}

/* A name in capitals as it is spelled with these of its letters small, a bit each; what is no letter stays. */
static struct text spelled(struct text name, unsigned small) {
    static uint8_t octets[UMBRELNIC_LONGEST_MECHANISM];
    for (size_t at = 0; at < name.size; at++) {
        bool turns = 'A' <= name.octets[at] && name.octets[at] <= 'Z' && (small >> at & 1) == 1;
        octets[at] = turns ? name.octets[at] - 'A' + 'a' : name.octets[at];
    }
    return (struct text){octets, name.size};
}

/* M-105: in a line each letter of a mechanism's name may be small. Every spelling of two names, all letters capital and all small among them. */
static void auth_in_every_spelling(void) {
    static const char *const names[] = {"PLAIN", "CRAM-MD5"};
    make_server();
    const uint64_t connections[] = {open_smtp(), open_pop3()};
    for (size_t i = 0; i < COUNT(names); i++) {
        struct text name = of_string(names[i]);
        for (unsigned small = 0; small < 1u << name.size; small++) {
            expect_found(UMBRELNIC_SMTP, connections[UMBRELNIC_SMTP], spelled(name, small), i == 0);
            expect_found(UMBRELNIC_POP3, connections[UMBRELNIC_POP3], spelled(name, small), i == 0);
        }
    }
}

/* What a client hears whose AUTH line has this octet at some place of a name, where this capital, digit or "-" belongs; `found`: what it hears
   where the name is right. */
static enum reply heard_of(uint8_t octet, uint8_t belongs, enum reply found) {
    uint8_t capital = 'a' <= octet && octet <= 'z' ? octet - 'a' + 'A' : octet;
    if (octet == '\0' || octet == '\r' || octet == '\n') {
        return NOT_UNDERSTOOD;
    }
    if (capital == belongs) {
        return found;
    }
    return strchr("ABCDEFGHIJKLMNOPQRSTUVWXYZ0123456789-_", capital) != NULL ? UNAVAILABLE : SYNTAX;
}

/* Each octet at one place of a name in small letters, after which this text stands. */
static void expect_each_octet(uint64_t profile, uint64_t connection, struct text name, size_t at, struct text after, enum reply found) {
    struct text small = spelled(name, UINT_MAX);
    uint8_t octets[UMBRELNIC_LONGEST_MECHANISM];
    memcpy(octets, small.octets, small.size);
    for (unsigned octet = 0; octet < 256; octet++) {
        octets[at] = (uint8_t)octet;
        enum reply reply = heard_of((uint8_t)octet, name.octets[at], found);
        EXPECT_REPLY(connection, auth_line((struct text){octets, name.size}, after), hears[profile][reply]);
        if (reply == EMPTY_CHALLENGE) {
            EXPECT_REPLY(connection, T("*"), hears[profile][CANCELLED]);
        }
    }
}

/* Those beside the letters ("@", "[", "`", "{"), letters with a bit more (80-FF) and "." are among them. A space ends the name, and what
   follows it is no base64. */
static void auth_with_each_octet_in_a_name(void) {
    make_server();
    const uint64_t connections[] = {open_smtp(), open_pop3()};
    for (uint64_t profile = 0; profile < 2; profile++) {
        for (size_t at = 0; at < strlen("PLAIN"); at++) {
            expect_each_octet(profile, connections[profile], T("PLAIN"), at, NO_OCTETS, EMPTY_CHALLENGE);
        }
        for (size_t at = 0; at < strlen("CRAM-MD5"); at++) {
            expect_each_octet(profile, connections[profile], T("CRAM-MD5"), at, T(" ="), NO_INITIAL);
        }
    }
}

/* Each of eight mechanisms is found, with its own two properties, and 504 comes before "not allowed". */
static void eight_mechanisms_are_told_apart(void) {
    static const char *const names[] = {"SAME-FIRST-15-LET0", "SAME-FIRST-15-LET1", "SAME-FIRST-15-LET",   "SAME-FIRST-15-LET3",
                                        "SAME-FIRST-15-LETTER", "SAME-FIRST-15-LETTES", "SAME-FIRST-15-LETTE", "A"};
    EXPECT_MADE(1, 1);
    for (size_t i = 0; i < COUNT(names); i++) {
        EXPECT_ADDED(of_string(names[i]), i % 2, i / 2 % 2);
    }
    EXPECT_OPENED(UMBRELNIC_POP3, 0, 1);
    EXPECT_OPENED(UMBRELNIC_POP3, 1, 2);
    for (size_t i = 0; i < COUNT(names); i++) {
        struct text line = joined(T("AUTH "), of_string(names[i]));
        struct text initial = joined(line, T(" Zm9v"));
        if (i / 2 % 2 == 1) {
            EXPECT_REPLY(1, line, "-ERR Mechanism not available");
            EXPECT_REPLY(1, initial, "-ERR Mechanism not available");
        }
        if (i % 2 == 1) {
            EXPECT_REPLY(2, line, "+ ");
            EXPECT_REPLY(2, T("*"), "-ERR Authentication cancelled");
        } else {
            EXPECT_REPLY(2, initial, "-ERR Initial response not allowed");
            EXPECT_START(2, line, next_ticket());
            EXPECT_SAID(next_ticket() - 1, UMBRELNIC_REJECTED, NO_OCTETS, "-ERR [AUTH] Credentials not accepted");
        }
    }
}

/* An unprotected connection has the mechanisms that need no protection, a protected one all. */
static void protection(void) {
    EXPECT_MADE(1, 1);
    EXPECT_ADDED(T("A"), 1, 0);
    EXPECT_ADDED(T("B"), 1, 1);
    EXPECT_ADDED(T("C"), 0, 1);
    EXPECT_OPENED(UMBRELNIC_POP3, 0, 1);
    EXPECT_OPENED(UMBRELNIC_POP3, 1, 2);
    EXPECT_REPLY(1, T("AUTH A"), "+ ");
    EXPECT_REPLY(1, T("*"), "-ERR Authentication cancelled");
    EXPECT_REPLY(1, T("AUTH B"), "-ERR Mechanism not available");
    EXPECT_REPLY(1, T("AUTH B Zm9v"), "-ERR Mechanism not available");
    EXPECT_REPLY(1, T("AUTH C"), "-ERR Mechanism not available");
    EXPECT_REPLY(1, T("AUTH C Zm9v"), "-ERR Mechanism not available");
    EXPECT_REPLY(1, T("AUTH C ="), "-ERR Mechanism not available");
    EXPECT_REPLY(2, T("AUTH C ="), "-ERR Initial response not allowed");
    EXPECT_QUERY(2, T("AUTH B ="), 1, NO_OCTETS);
}

static void a_server_without_mechanisms(void) {
    EXPECT_MADE(1, 1);
    uint64_t connection = open_smtp();
    EXPECT_REPLY(connection, T("AUTH PLAIN Zm9v"), "504 5.5.4 Mechanism not available");
    EXPECT_REPLY(connection, T("AUTH PLAIN !"), "501 5.5.2 Syntax error");
}

/* "Quoting the offending line in a 501" is one of document 01's shortcuts that break it. */
static void no_reply_quotes_its_line(void) {
    make_server();
    uint64_t smtp = open_smtp();
    EXPECT_REPLY(smtp, T("AUTH PLAIN c2VjcmV0!"), "501 5.5.2 Syntax error");
    EXPECT_REPLY(smtp, T("MAIL FROM:<> AUTH=secret"), "501 5.5.2 Syntax error");
    EXPECT_REPLY(smtp, T("AUTH PLAIN"), "334 ");
    EXPECT_REPLY(smtp, T("c2VjcmV0!"), "501 5.5.2 Syntax error");
}

int main(void) {
    static const struct test tests[] = {
        TEST(ehlo_greets_and_helo_does_not),
        TEST(greetings_need_an_argument),
        TEST(what_ends_a_transaction),
        TEST(what_ends_none),
        TEST(rset_and_quit_take_nothing),
        TEST(other_verbs_on_smtp),
        TEST(verbs_on_pop3),
        TEST(mail_ended_on_pop3_changes_nothing),
        TEST(who_is_signed_in_stays),
        TEST(auth_at_the_wrong_moment),
        TEST(auth_grammar),
        TEST(auth_without_a_mechanism_of_its_name),
        TEST(auth_in_every_spelling),
        TEST(auth_with_each_octet_in_a_name),
        TEST(eight_mechanisms_are_told_apart),
        TEST(protection),
        TEST(a_server_without_mechanisms),
        TEST(no_reply_quotes_its_line),
    };
    return RUN_TESTS("commands", tests);
}
