/* Whole dialogues: document 01's script and its cases marked P through the calls, and the examples of RFC 4954 section 4.1 and 5.1,
   RFC 5034 section 6 and RFC 4405, as far as the desk hears them and with its own texts. */
#include "check.h"

/* The script of document 01, "This input prints this output, whole". */
static void the_script_of_document_01(void) {
    make_server();
    EXPECT_OPENED(UMBRELNIC_SMTP, 1, 1);
    EXPECT_FORWARD(1, T("EHLO a.example"));
    EXPECT_QUERY(1, T("AUTH PLAIN Zm9v"), 1, T("foo"));
    EXPECT_SAID(1, UMBRELNIC_SUCCESS, T("anna"), "235 2.7.0 Authentication succeeded");
    EXPECT_REPLY(1, T("AUTH PLAIN Zm9v"), "503 5.5.1 Not permitted now");
    EXPECT_DONE(call_close(1));
    EXPECT_REFUSED(call_verdict(1, UMBRELNIC_SUCCESS, T("anna")).refusal, 4);
}

/* "Both sides of each line" */
static void the_cases_of_document_01(void) {
    static const struct {
        const char *text;
        const char *octets; /* NULL: refused */
    } cases[] = {
        {"Zm9v", "foo"}, {"Zg==", "f"}, {"Zh==", NULL}, {"=AAA", NULL}, {"AAA=BBB", NULL}, {"", ""}, {"=", NULL}, {"QUIT", "\x41\x42\x13"},
    };
    make_server();
    uint64_t connection = open_smtp();
    for (size_t i = 0; i < COUNT(cases); i++) {
        uint64_t ticket = next_ticket();
        EXPECT_REPLY(connection, T("AUTH PLAIN"), "334 ");
        if (cases[i].octets == NULL) {
            EXPECT_REPLY(connection, of_string(cases[i].text), "501 5.5.2 Syntax error");
        } else {
            EXPECT_QUERY(connection, of_string(cases[i].text), ticket, of_string(cases[i].octets));
            EXPECT_SAID(ticket, UMBRELNIC_REJECTED, NO_OCTETS, "535 5.7.8 Credentials not accepted");
        }
    }
    EXPECT_QUERY(connection, T("AUTH PLAIN ="), next_ticket(), NO_OCTETS);
}

static void the_cases_of_names_and_xtext(void) {
    EXPECT_MADE(1, 1);
    EXPECT_ADDED(T("ABCDEFGHIJKLMNOPQRST"), 1, 0);
    EXPECT_REFUSED(call_add(T("ABCDEFGHIJKLMNOPQRSTU"), 1, 0), 8);
    make_server();
    uint64_t connection = open_smtp();
    sign_in(connection, T("anna"));
    EXPECT_REPLY(connection, T("MAIL FROM:<> AUTH=e+3dmc2@example.com"), "501 5.5.2 Syntax error");
    EXPECT_ADDRESS(connection, T("MAIL FROM:<> AUTH=e+3Dmc2@example.com"), T("e=mc2@example.com"));
}

/* RFC 4954 section 4.1: PLAIN under TLS, with the initial response. */
static void rfc_4954_initial_response(void) {
    make_server();
    EXPECT_OPENED(UMBRELNIC_SMTP, 0, 1);
    EXPECT_FORWARD(1, T("EHLO client.example.com"));
    EXPECT_FORWARD(1, T("STARTTLS"));
    EXPECT_DONE(call_close(1));
    EXPECT_OPENED(UMBRELNIC_SMTP, 1, 2);
    EXPECT_FORWARD(2, T("EHLO client.example.com"));
    EXPECT_QUERY(2, T("AUTH PLAIN dGVzdAB0ZXN0ADEyMzQ="), 1, T("test\0test\0001234"));
    EXPECT_SAID(1, UMBRELNIC_SUCCESS, T("test"), "235 2.7.0 Authentication succeeded");
    EXPECT_NAME(2, T("test"));
}

/* ... and without: "there is a single space following the 334" */
static void rfc_4954_empty_challenge(void) {
    make_server();
    EXPECT_OPENED(UMBRELNIC_SMTP, 1, 1);
    EXPECT_FORWARD(1, T("EHLO client.example.com"));
    EXPECT_REPLY(1, T("AUTH PLAIN"), "334 ");
    EXPECT_QUERY(1, T("dGVzdAB0ZXN0ADEyMzQ="), 1, T("test\0test\0001234"));
    EXPECT_SAID(1, UMBRELNIC_SUCCESS, T("test"), "235 2.7.0 Authentication succeeded");
}

static void rfc_4954_cram_md5(void) {
    make_server();
    EXPECT_OPENED(UMBRELNIC_SMTP, 0, 1);
    EXPECT_FORWARD(1, T("EHLO client.example.com"));
    EXPECT_START(1, T("AUTH CRAM-MD5"), 1);
    EXPECT_SAID(1, UMBRELNIC_CHALLENGE, T("<4192942341.12828472@sourcefour.andrew.cmu.edu>"),
                "334 PDQxOTI5NDIzNDEuMTI4Mjg0NzJAc291cmNlZm91ci5hbmRyZXcuY211LmVkdT4=");
    EXPECT_QUERY(1, T("cmpzMyBlYzNhNTlmZWQzOTVhYmExZWM2MzY3YzRmNGI0MWFjMA=="), 2, T("rjs3 ec3a59fed395aba1ec6367c4f4b41ac0"));
    EXPECT_SAID(2, UMBRELNIC_SUCCESS, T("rjs3"), "235 2.7.0 Authentication succeeded");
}

/* EXTERNAL, with a zero-length initial response */
static void rfc_4954_external(void) {
    EXPECT_MADE(1, 1);
    EXPECT_ADDED(T("EXTERNAL"), 1, 1);
    EXPECT_OPENED(UMBRELNIC_SMTP, 1, 1);
    EXPECT_FORWARD(1, T("EHLO client.example.com"));
    EXPECT_QUERY(1, T("AUTH EXTERNAL ="), 1, NO_OCTETS);
    EXPECT_SAID(1, UMBRELNIC_SUCCESS, T("client.example.com"), "235 2.7.0 Authentication succeeded");
}

/* Section 5.1 */
static void rfc_4954_mail(void) {
    make_server();
    uint64_t connection = open_smtp();
    EXPECT_MAIL(connection, T("MAIL FROM:<e=mc2@example.com> AUTH=e+3Dmc2@example.com"), UMBRELNIC_NULL);
    EXPECT_DONE(call_mail_ended(connection));
    sign_in(connection, T("anna"));
    EXPECT_ADDRESS(connection, T("MAIL FROM:<e=mc2@example.com> AUTH=e+3Dmc2@example.com"), T("e=mc2@example.com"));
    EXPECT_DONE(call_mail_ended(connection));
    EXPECT_MAIL(connection, T("MAIL FROM:<john+@example.org> AUTH=<>"), UMBRELNIC_NULL);
}

/* RFC 5034 section 6 */
static void rfc_5034_plain(void) {
    make_server();
    EXPECT_OPENED(UMBRELNIC_POP3, 0, 1);
    EXPECT_FORWARD(1, T("CAPA"));
    EXPECT_REPLY(1, T("AUTH PLAIN dGVzdAB0ZXN0AHRlc3Q="), "-ERR Mechanism not available");
    EXPECT_FORWARD(1, T("STLS"));
    EXPECT_OPENED(UMBRELNIC_POP3, 1, 2);
    EXPECT_FORWARD(2, T("CAPA"));
    EXPECT_QUERY(2, T("AUTH PLAIN dGVzdAB0ZXN0AHRlc3Q="), 1, T("test\0test\0test"));
    EXPECT_SAID(1, UMBRELNIC_SUCCESS, T("test"), "+OK Authenticated");
    EXPECT_OPENED(UMBRELNIC_POP3, 1, 3);
    EXPECT_REPLY(3, T("AUTH PLAIN"), "+ ");
    EXPECT_QUERY(3, T("dGVzdAB0ZXN0AHRlc3Q="), 2, T("test\0test\0test"));
    EXPECT_SAID(2, UMBRELNIC_SUCCESS, T("test"), "+OK Authenticated");
}

static void rfc_5034_digest_md5(void) {
    EXPECT_MADE(1, 1);
    EXPECT_ADDED(T("DIGEST-MD5"), 0, 0);
    EXPECT_OPENED(UMBRELNIC_POP3, 0, 1);
    EXPECT_START(1, T("AUTH DIGEST-MD5"), 1);
    EXPECT_SAID(1, UMBRELNIC_CHALLENGE,
                T("realm=\"elwood.innosoft.com\",nonce=\"OA6MG9tEQGm2hh\",qop=\"auth\",algorithm=md5-sess,charset=utf-8"),
                "+ cmVhbG09ImVsd29vZC5pbm5vc29mdC5jb20iLG5vbmNlPSJPQTZNRzl0RVFHbTJoaCIscW9wPSJhdXRoIixhbGdvcml0aG09bWQ1LXNlc3Ms"
                "Y2hhcnNldD11dGYtOA==");
    EXPECT_QUERY(1,
                 T("Y2hhcnNldD11dGYtOCx1c2VybmFtZT0iY2hyaXMiLHJlYWxtPSJlbHdvb2QuaW5ub3NvZnQuY29tIixub25jZT0iT0E2TUc5dEVRR20yaGgiLG5jPTAw"
                   "MDAwMDAxLGNub25jZT0iT0E2TUhYaDZWcVRyUmsiLGRpZ2VzdC11cmk9InBvcC9lbHdvb2QuaW5ub3NvZnQuY29tIixyZXNwb25zZT1iMGQ1NmQyZjA1"
                   "NGMyNGI2MjA3MjMyMjEwNjQ2OGRiOSxxb3A9YXV0aA=="),
                 2,
                 T("charset=utf-8,username=\"chris\",realm=\"elwood.innosoft.com\",nonce=\"OA6MG9tEQGm2hh\",nc=00000001,"
                   "cnonce=\"OA6MHXh6VqTrRk\",digest-uri=\"pop/elwood.innosoft.com\",response=b0d56d2f054c24b62072322106468db9,qop=auth"));
    EXPECT_SAID(2, UMBRELNIC_CHALLENGE, T("rspauth=0b971462cef5e8f930db9a33b02fc9a0"),
                "+ cnNwYXV0aD0wYjk3MTQ2MmNlZjVlOGY5MzBkYjlhMzNiMDJmYzlhMA==");
    EXPECT_QUERY(1, T(""), 3, NO_OCTETS);
    EXPECT_SAID(3, UMBRELNIC_SUCCESS, T("chris"), "+OK Authenticated");
    EXPECT_NAME(1, T("chris"));
}

/* RFC 4405: SUBMITTER is read and leaves the identity as it is. */
static void rfc_4405_submitter(void) {
    static const char *const lines[] = {"MAIL FROM:<alice@example.com> SUBMITTER=alice@example.com",
                                        "MAIL FROM:<alice@example.com> SUBMITTER=bob@almamater.edu.example"};
    make_server();
    uint64_t connection = open_smtp();
    sign_in(connection, T("anna"));
    for (size_t i = 0; i < COUNT(lines); i++) {
        EXPECT_MAIL(connection, of_string(lines[i]), UMBRELNIC_ABSENT);
        EXPECT_FORWARD(connection, T("RCPT TO:<bob@company.com.example>"));
        EXPECT_FORWARD(connection, T("DATA"));
        EXPECT_DONE(call_mail_ended(connection));
    }
    EXPECT_FORWARD(connection, T("QUIT"));
}

/* A morning's mail: two orders under one name, then the next office in the same slot. */
static void a_morning(void) {
    make_server();
    uint64_t office = open_smtp();
    EXPECT_QUERY(office, T("AUTH PLAIN AGEAYg=="), 1, T("\0a\0b"));
    EXPECT_SAID(1, UMBRELNIC_REJECTED, NO_OCTETS, "535 5.7.8 Credentials not accepted");
    EXPECT_QUERY(office, T("AUTH PLAIN AGEAYw=="), 2, T("\0a\0c"));
    EXPECT_SAID(2, UMBRELNIC_SUCCESS, T("brook-street"), "235 2.7.0 Authentication succeeded");
    for (int order = 0; order < 2; order++) {
        EXPECT_MAIL(office, T("MAIL FROM:<orders@brook.example>"), UMBRELNIC_ABSENT);
        EXPECT_NAME(office, T("brook-street"));
        EXPECT_DONE(call_mail_ended(office));
    }
    EXPECT_FORWARD(office, T("QUIT"));
    EXPECT_DONE(call_close(office));
    uint64_t next = open_smtp();
    EXPECT_NOBODY(next);
    EXPECT_MAIL(next, T("MAIL FROM:<orders@mill.example> AUTH=orders@brook.example"), UMBRELNIC_NULL);
}

int main(void) {
    static const struct test tests[] = {
        TEST(the_script_of_document_01),
        TEST(the_cases_of_document_01),
        TEST(the_cases_of_names_and_xtext),
        TEST(rfc_4954_initial_response),
        TEST(rfc_4954_empty_challenge),
        TEST(rfc_4954_cram_md5),
        TEST(rfc_4954_external),
        TEST(rfc_4954_mail),
        TEST(rfc_5034_plain),
        TEST(rfc_5034_digest_md5),
        TEST(rfc_4405_submitter),
        TEST(a_morning),
    };
    return RUN_TESTS("dialogues", tests);
}
