/* "What a client hears": every text on both profiles, octet for octet, and challenges of every length that matters. */
#include "check.h"

/* A connection of this profile that awaits an answer, after the empty challenge. */
static uint64_t awaiting(uint64_t profile) {
    make_server();
    uint64_t connection = profile == UMBRELNIC_SMTP ? open_smtp() : open_pop3();
    EXPECT_REPLY(connection, T("AUTH PLAIN"), profile == UMBRELNIC_SMTP ? "334 " : "+ ");
    return connection;
}

/* ... and one that waits on ticket 1. */
static uint64_t waiting(uint64_t profile) {
    make_server();
    uint64_t connection = profile == UMBRELNIC_SMTP ? open_smtp() : open_pop3();
    EXPECT_QUERY(connection, T("AUTH PLAIN Zm9v"), 1, T("foo"));
    return connection;
}

static void expect_both(uint64_t verdict, struct text data, const char *smtp, const char *pop3) {
    waiting(UMBRELNIC_SMTP);
    EXPECT_SAID(1, verdict, data, smtp);
    waiting(UMBRELNIC_POP3);
    EXPECT_SAID(1, verdict, data, pop3);
}

static void verdicts(void) {
    expect_both(UMBRELNIC_SUCCESS, T("anna"), "235 2.7.0 Authentication succeeded", "+OK Authenticated");
    expect_both(UMBRELNIC_TRANSITION, NO_OCTETS, "432 4.7.12 Password transition needed", "-ERR [AUTH] Password transition needed");
    expect_both(UMBRELNIC_TEMPORARY, NO_OCTETS, "454 4.7.0 Temporary authentication failure",
                "-ERR [SYS/TEMP] Temporary authentication failure");
    expect_both(UMBRELNIC_WEAK, NO_OCTETS, "534 5.7.9 Mechanism too weak", "-ERR Mechanism too weak");
    expect_both(UMBRELNIC_REJECTED, NO_OCTETS, "535 5.7.8 Credentials not accepted", "-ERR [AUTH] Credentials not accepted");
}

static void answer_too_long(void) {
    EXPECT_REPLY(awaiting(UMBRELNIC_SMTP), repeated(T("A"), 12288), "500 5.5.6 Authentication line too long");
    EXPECT_REPLY(awaiting(UMBRELNIC_POP3), repeated(T("A"), 12288), "-ERR Authentication line too long");
}

static void line_not_understood(void) {
    make_server();
    EXPECT_REPLY(open_smtp(), repeated(T("A"), 511), "500 5.5.2 Line not understood");
    EXPECT_REPLY(open_smtp(), T("NO\rOP"), "500 5.5.2 Line not understood");
    EXPECT_REPLY(open_pop3(), repeated(T("A"), 254), "-ERR Line not understood");
    EXPECT_REPLY(open_pop3(), T("NO\0OP"), "-ERR Line not understood");
}

static void syntax_error(void) {
    make_server();
    EXPECT_REPLY(open_smtp(), T("AUTH plain."), "501 5.5.2 Syntax error");
    EXPECT_REPLY(open_pop3(), T("AUTH plain."), "-ERR Syntax error");
    EXPECT_REPLY(awaiting(UMBRELNIC_SMTP), T("Zh=="), "501 5.5.2 Syntax error");
    EXPECT_REPLY(awaiting(UMBRELNIC_POP3), T("Zh=="), "-ERR Syntax error");
}

static void cancelled(void) {
    EXPECT_REPLY(awaiting(UMBRELNIC_SMTP), T("*"), "501 5.7.0 Authentication cancelled");
    EXPECT_REPLY(awaiting(UMBRELNIC_POP3), T("*"), "-ERR Authentication cancelled");
}

/* RFC 2554 had 535 here; RFC 4954 has 501. */
static void initial_response_not_allowed(void) {
    make_server();
    EXPECT_REPLY(open_smtp(), T("AUTH CRAM-MD5 Zm9v"), "501 5.7.0 Initial response not allowed");
    EXPECT_REPLY(open_smtp(), T("AUTH CRAM-MD5 ="), "501 5.7.0 Initial response not allowed");
    EXPECT_REPLY(open_pop3(), T("AUTH CRAM-MD5 Zm9v"), "-ERR Initial response not allowed");
    EXPECT_REPLY(open_pop3(), T("AUTH CRAM-MD5 ="), "-ERR Initial response not allowed");
}

static void not_permitted_now(void) {
    make_server();
    uint64_t smtp = open_smtp();
    uint64_t pop3 = open_pop3();
    sign_in(smtp, T("anna"));
    sign_in(pop3, T("anna"));
    EXPECT_REPLY(smtp, T("AUTH PLAIN Zm9v"), "503 5.5.1 Not permitted now");
    EXPECT_REPLY(pop3, T("AUTH PLAIN Zm9v"), "-ERR Not permitted now");
    EXPECT_REPLY(pop3, T("USER anna"), "-ERR Not permitted now");
}

static void mechanism_not_available(void) {
    make_server();
    EXPECT_REPLY(open_smtp(), T("AUTH NOSUCH"), "504 5.5.4 Mechanism not available");
    EXPECT_REPLY(open_pop3(), T("AUTH NOSUCH"), "-ERR Mechanism not available");
    uint64_t smtp = call_open(UMBRELNIC_SMTP, 0).connection;
    EXPECT_FORWARD(smtp, T("EHLO a"));
    EXPECT_REPLY(smtp, T("AUTH PLAIN Zm9v"), "504 5.5.4 Mechanism not available");
    EXPECT_REPLY(call_open(UMBRELNIC_POP3, 0).connection, T("AUTH PLAIN"), "-ERR Mechanism not available");
}

/* "The space stays when the challenge is empty." */
static void the_empty_challenge(void) {
    awaiting(UMBRELNIC_SMTP);
    EXPECT(same_text(heard, T("334 \r\n")));
    awaiting(UMBRELNIC_POP3);
    EXPECT(same_text(heard, T("+ \r\n")));
    expect_both(UMBRELNIC_CHALLENGE, NO_OCTETS, "334 ", "+ ");
}

/* RFC 4648 section 10, and octets that need every bit. */
static void short_challenges(void) {
    expect_both(UMBRELNIC_CHALLENGE, T("f"), "334 Zg==", "+ Zg==");
    expect_both(UMBRELNIC_CHALLENGE, T("fo"), "334 Zm8=", "+ Zm8=");
    expect_both(UMBRELNIC_CHALLENGE, T("foo"), "334 Zm9v", "+ Zm9v");
    expect_both(UMBRELNIC_CHALLENGE, T("foob"), "334 Zm9vYg==", "+ Zm9vYg==");
    expect_both(UMBRELNIC_CHALLENGE, T("fooba"), "334 Zm9vYmE=", "+ Zm9vYmE=");
    expect_both(UMBRELNIC_CHALLENGE, T("foobar"), "334 Zm9vYmFy", "+ Zm9vYmFy");
    expect_both(UMBRELNIC_CHALLENGE, T("\0\0\0"), "334 AAAA", "+ AAAA");
    expect_both(UMBRELNIC_CHALLENGE, T("\0"), "334 AA==", "+ AA==");
    expect_both(UMBRELNIC_CHALLENGE, T("\377\377\377"), "334 ////", "+ ////");
    expect_both(UMBRELNIC_CHALLENGE, T("\377\376"), "334 //4=", "+ //4=");
    expect_both(UMBRELNIC_CHALLENGE, T("\373\357\276"), "334 ++++", "+ ++++");
}

/* Three octets at a time, all 64 letters: 00 10 83 10 51 87 20 92 8B ... is ABCDEFGHIJKL... */
static void every_letter_of_a_challenge(void) {
    expect_both(UMBRELNIC_CHALLENGE,
                T("\x00\x10\x83\x10\x51\x87\x20\x92\x8b\x30\xd3\x8f\x41\x14\x93\x51\x55\x97\x61\x96\x9b\x71\xd7\x9f"
                  "\x82\x18\xa3\x92\x59\xa7\xa2\x9a\xab\xb2\xdb\xaf\xc3\x1c\xb3\xd3\x5d\xb7\xe3\x9e\xbb\xf3\xdf\xbf"),
                "334 ABCDEFGHIJKLMNOPQRSTUVWXYZabcdefghijklmnopqrstuvwxyz0123456789+/",
                "+ ABCDEFGHIJKLMNOPQRSTUVWXYZabcdefghijklmnopqrstuvwxyz0123456789+/");
}

static void expect_challenge(uint64_t profile, struct text data, struct text encoded) {
    struct text prefix = profile == UMBRELNIC_SMTP ? T("334 ") : T("+ ");
    waiting(profile);
    struct umbrelnic_said said = call_verdict(1, UMBRELNIC_CHALLENGE, data);
    EXPECT_NUMBER(said.refusal, 0);
    EXPECT_NUMBER(said.length, prefix.size + encoded.size + 2);
    EXPECT(same_text(heard, joined(joined(prefix, encoded), T("\r\n"))));
}

/* 9,210 octets are 12,280 letters: with prefix and CRLF 12,286 octets on SMTP. */
static void the_longest_challenges(void) {
    for (uint64_t profile = 0; profile < 2; profile++) {
        expect_challenge(profile, repeated(T("foo"), 3070), repeated(T("Zm9v"), 3070));
        expect_challenge(profile, joined(repeated(T("foo"), 3069), T("fo")), joined(repeated(T("Zm9v"), 3069), T("Zm8=")));
        expect_challenge(profile, joined(repeated(T("foo"), 3069), T("f")), joined(repeated(T("Zm9v"), 3069), T("Zg==")));
        expect_challenge(profile, repeated(T("foo"), 3069), repeated(T("Zm9v"), 3069));
    }
    expect_challenge(UMBRELNIC_SMTP, repeated(T("foo"), 3070), repeated(T("Zm9v"), 3070));
    EXPECT_NUMBER(heard.size, 12286);
}

/* "Octets past the stated length stay as lent", with longer buffers than are needed too (check.h looks). */
static void longer_buffers(void) {
    waiting(UMBRELNIC_SMTP);
    lent.reply_octets = 20000;
    lent.answer_octets = 15000;
    EXPECT_NUMBER(call_verdict(1, UMBRELNIC_CHALLENGE, repeated(T("foo"), 3070)).length, 12286);
    EXPECT_QUERY(1, repeated(T("Zm9v"), 3071), 2, repeated(T("foo"), 3071));
    EXPECT_SAID(2, UMBRELNIC_SUCCESS, T("anna"), "235 2.7.0 Authentication succeeded");
    EXPECT_ADDRESS(1, T("MAIL FROM:<> AUTH=a@b"), T("a@b"));
    lent.name_octets = 100;
    EXPECT_NAME(1, T("anna"));
}

int main(void) {
    static const struct test tests[] = {
        TEST(verdicts),
        TEST(answer_too_long),
        TEST(line_not_understood),
        TEST(syntax_error),
        TEST(cancelled),
        TEST(initial_response_not_allowed),
        TEST(not_permitted_now),
        TEST(mechanism_not_available),
        TEST(the_empty_challenge),
        TEST(short_challenges),
        TEST(every_letter_of_a_challenge),
        TEST(the_longest_challenges),
        TEST(longer_buffers),
    };
    return RUN_TESTS("replies", tests);
}
