/* MAIL lines, xtext and the identity to relay. */
#include "check.h"

/* Two connections on SMTP: nobody is signed in on the first, somebody on the second. */
enum { NOBODYS = 1, ANNAS = 2 };

static void open_both(void) {
    make_server();
    EXPECT_NUMBER(open_smtp(), NOBODYS);
    EXPECT_NUMBER(open_smtp(), ANNAS);
    sign_in(ANNAS, T("anna"));
}

/* A good line, with what it has the host relay where somebody is signed in; where nobody is, that is always "<>". */
static void expect_good(struct text line, uint64_t identity, struct text address) {
    expect_mail(NOBODYS, line, UMBRELNIC_NULL);
    expect_mail(ANNAS, line, identity);
    if (!same_text(handed, address)) {
        fail("another address was handed over");
    }
    expect_number("mail ended", call_mail_ended(NOBODYS), 0);
    expect_number("mail ended", call_mail_ended(ANNAS), 0);
}
#define EXPECT_ABSENT(line) (AT, expect_good(line, UMBRELNIC_ABSENT, NO_OCTETS))
#define EXPECT_NULL(line) (AT, expect_good(line, UMBRELNIC_NULL, NO_OCTETS))
#define EXPECT_RELAYED(line, address) (AT, expect_good(line, UMBRELNIC_ADDRESS, address))

/* A bad one hears 501 whoever sends it, and opens nothing. */
static void expect_bad(struct text line) {
    for (uint64_t connection = NOBODYS; connection <= ANNAS; connection++) {
        expect_reply(connection, line, "501 5.5.2 Syntax error");
        expect_number("transaction", slot_of(connection)[TRANSACTION], 0);
    }
}
#define EXPECT_BAD(line) (AT, expect_bad(line))

static void good_lines(void) {
    static const char *const lines[] = {
        "MAIL FROM:<>", "mail from:<a@b>", "MaIl FrOm:<a b \"<c> X", "MAIL FROM:<a\x80\xff\x01\t>", "MAIL FROM:<a> X",
        "MAIL FROM:<a> X=y", "MAIL FROM:<a> X-Y-=y Z", "MAIL FROM:<a> 8BITMIME", "MAIL FROM:<a> SIZE=1 size=2 SIZE",
        "MAIL FROM:<a> X=+3d", "MAIL FROM:<a> X=+", "MAIL FROM:<a> X=<>", "MAIL FROM:<a> AUTHX=a", "MAIL FROM:<a> AUTH-",
        "MAIL FROM:<a> AUT=a AUT=b", "MAIL FROM:<a> SUBMITTERS SUBMITTE=a", "MAIL FROM:<a> X=!~", "MAIL FROM:<<a>",
        "MAIL FROM:<AUTH=a@b>", "MAIL FROM:< AUTH=a@b>", "MAIL FROM:<a> X=AUTH@a", "MAIL FROM:<a> 0=-",
    };
    open_both();
    for (size_t i = 0; i < COUNT(lines); i++) {
        EXPECT_ABSENT(of_string(lines[i]));
    }
}

static void bad_lines(void) {
    static const char *const lines[] = {
        "MAIL", "MAIL ", "MAIL FROM", "MAIL FROM:", "MAIL FROM:<", "MAIL FROM:<a", "MAIL FROM: <a>", "MAIL  FROM:<a>",
        "MAIL FROM:a", "MAIL FROM:a@b>", "MAIL FROM :<a>", "MAIL TO:<a>", "MAIL FROM;<a>", "MAIL FROM:<a>b>", "MAIL FROM:<a>X",
        "MAIL FROM:<a> ", "MAIL FROM:<a>  X", "MAIL FROM:<a> X ", "MAIL FROM:<a> X  Y", "MAIL FROM:<a>\tX", "MAIL FROM:<a> -X",
        "MAIL FROM:<a> =", "MAIL FROM:<a> =x", "MAIL FROM:<a> X=", "MAIL FROM:<a> X= Y", "MAIL FROM:<a> X=y=z",
        "MAIL FROM:<a> X==", "MAIL FROM:<a> X_Y", "MAIL FROM:<a> X.Y=z", "MAIL FROM:<a> X\x80=z", "MAIL FROM:<a> X=\x7f",
        "MAIL FROM:<a> X=\x80", "MAIL FROM:<a> X=\t", "MAIL FROM:<a> X=y\tZ", "MAIL FROM:<a> X<=y", "MAIL FROM:<a>>",
        "MAIL FROM:<a> >", "MAIL FROM:<a> @",
    };
    open_both();
    for (size_t i = 0; i < COUNT(lines); i++) {
        EXPECT_BAD(of_string(lines[i]));
    }
}

/* A line cut at each octet: it is bad but for a whole path, a whole value, and a keyword that is cut to another one. */
static void lines_that_are_cut(void) {
    struct text line = T("MAIL FROM:<a@b.example> AUTH=c@d SUBMITTER=e@f");
    open_both();
    for (size_t size = 4; size <= line.size; size++) {
        struct text cut = first_of(line, size);
        bool path = size == sizeof "MAIL FROM:<a@b.example>" - 1;
        bool before_auth = sizeof "MAIL FROM:<a@b.example> A" - 1 <= size && size <= sizeof "MAIL FROM:<a@b.example> AUT" - 1;
        bool auth = size == sizeof "MAIL FROM:<a@b.example> AUTH=c@d" - 1 || size == line.size;
        bool before_submitter = sizeof "MAIL FROM:<a@b.example> AUTH=c@d S" - 1 <= size &&
                                size <= sizeof "MAIL FROM:<a@b.example> AUTH=c@d SUBMITTE" - 1;
        if (path || before_auth) {
            EXPECT_ABSENT(cut);
        } else if (auth || before_submitter) {
            EXPECT_RELAYED(cut, T("c@d"));
        } else {
            EXPECT_BAD(cut);
        }
    }
}

static void null_senders(void) {
    static const char *const lines[] = {
        "MAIL FROM:<a> AUTH=<>", "MAIL FROM:<a> auth=<>", "MAIL FROM:<a> AUTH=+3C+3E", "MAIL FROM:<a> AUTH=<+3E",
        "MAIL FROM:<a> AUTH=+3C>", "MAIL FROM:<> X AUTH=<> Y=z", "MAIL FROM:<a> SUBMITTER=a@b AUTH=<>",
    };
    open_both();
    for (size_t i = 0; i < COUNT(lines); i++) {
        EXPECT_NULL(of_string(lines[i]));
    }
}

static void expect_value(const char *value, struct text address) {
    EXPECT_RELAYED(joined(T("MAIL FROM:<> AUTH="), of_string(value)), address);
    EXPECT_RELAYED(joined(T("MAIL FROM:<> X=y aUtH="), joined(of_string(value), T(" Z"))), address);
    EXPECT_ABSENT(joined(T("MAIL FROM:<> SUBMITTER="), of_string(value)));
    EXPECT_NULL(joined(T("MAIL FROM:<> AUTH=<> submitter="), of_string(value)));
}

/* "an octet before and after some "@"" */
static void addresses(void) {
    open_both();
    expect_value("a@b", T("a@b"));
    expect_value("e+3Dmc2@example.com", T("e=mc2@example.com"));
    expect_value("a@b@c", T("a@b@c"));
    expect_value("@@@", T("@@@"));
    expect_value("a@@", T("a@@"));
    expect_value("@@a", T("@@a"));
    expect_value("@a@b", T("@a@b"));
    expect_value("a@b@", T("a@b@"));
    expect_value("+40+40+40", T("@@@"));
    expect_value("a+40b", T("a@b"));
    expect_value("+61@b", T("a@b"));
    expect_value("<>@<>", T("<>@<>"));
    expect_value("<@>", T("<@>"));
    expect_value("+00@+FF", T("\0@\377"));
    expect_value("+0D+0A@+20", T("\r\n@ "));
    expect_value("a+2Bb@c", T("a+b@c"));
    expect_value("!@~", T("!@~"));
    expect_value("*,<>?@*,<>?~", T("*,<>?@*,<>?~"));
}

static void expect_bad_value(const char *value) {
    EXPECT_BAD(joined(T("MAIL FROM:<> AUTH="), of_string(value)));
    EXPECT_BAD(joined(T("MAIL FROM:<> X "), joined(T("auth="), joined(of_string(value), T(" Y=z")))));
    EXPECT_BAD(joined(T("MAIL FROM:<> SUBMITTER="), of_string(value)));
    EXPECT_BAD(joined(T("MAIL FROM:<> AUTH=<> SUBMITTER="), of_string(value)));
}

static void values_that_are_no_address(void) {
    static const char *const values[] = {
        "", "a", "@", "@@", "@a", "a@", "ab", "+40", "+40a", "a+40", "<", ">", "><", "<>x", "x<>", "<<>>", "+3C+3E+3E", "<+3C",
        "<>@", "@<>",
    };
    open_both();
    for (size_t i = 0; i < COUNT(values); i++) {
        expect_bad_value(values[i]);
    }
}

/* "two digits of 0-9, A-F" */
static void values_that_are_no_xtext(void) {
    static const char *const values[] = {
        "a@b+3d", "a@b+3D+", "a@b+4", "a@b+", "a@+b", "a@b+G0", "a@b+0G", "a@b++2B", "a@b+2b", "+a@b", "a@b+ff", "a@b+Ff",
        "a@b+fF", "a@b+:0", "a@b+/0", "a@b+0@", "a@b+@0", "a@b+0`", "a@b=",
    };
    open_both();
    for (size_t i = 0; i < COUNT(values); i++) {
        expect_bad_value(values[i]);
    }
}

/* Every octet in a value stands for itself, or is no xtext; every pair of hex digits stands for its octet. */
static void every_octet_of_xtext(void) {
    open_both();
    for (int octet = 0; octet < 256; octet++) {
        uint8_t raw[] = {'a', '@', 'b', (uint8_t)octet};
        uint8_t escape[] = {'+', (uint8_t)"0123456789ABCDEF"[octet / 16], (uint8_t)"0123456789ABCDEF"[octet % 16]};
        struct text line = joined(T("MAIL FROM:<> AUTH="), (struct text){raw, 4});
        bool itself = 0x21 <= octet && octet <= 0x7e && octet != '+' && octet != '=';
        if (octet == 0 || octet == '\r' || octet == '\n') {
            EXPECT_REPLY(ANNAS, line, "500 5.5.2 Line not understood");
        } else if (itself) {
            EXPECT_RELAYED(line, ((struct text){raw, 4}));
        } else {
            EXPECT_BAD(line);
        }
        EXPECT_RELAYED(joined(T("MAIL FROM:<> AUTH=a@b"), (struct text){escape, 3}), ((struct text){raw, 4}));
    }
}

/* "AUTH and SUBMITTER at most once each, with a value" */
static void identities_once_each(void) {
    open_both();
    EXPECT_BAD(T("MAIL FROM:<> AUTH"));
    EXPECT_BAD(T("MAIL FROM:<> AUTH X"));
    EXPECT_BAD(T("MAIL FROM:<> SUBMITTER"));
    EXPECT_BAD(T("MAIL FROM:<> SUBMITTER=<>"));
    EXPECT_BAD(T("MAIL FROM:<> AUTH=<> AUTH=<>"));
    EXPECT_BAD(T("MAIL FROM:<> AUTH=a@b auth=a@b"));
    EXPECT_BAD(T("MAIL FROM:<> AUTH=a@b X AUTH=<>"));
    EXPECT_BAD(T("MAIL FROM:<> AUTH=a@b AUTH"));
    EXPECT_BAD(T("MAIL FROM:<> SUBMITTER=a@b Submitter=a@b"));
    EXPECT_BAD(T("MAIL FROM:<> SUBMITTER=a@b AUTH=<> SUBMITTER=a@b"));
    EXPECT_BAD(T("MAIL FROM:<> AUTH=a@b SUBMITTER=c"));
    EXPECT_BAD(T("MAIL FROM:<> SUBMITTER=c@d AUTH=a"));
    EXPECT_RELAYED(T("MAIL FROM:<> AUTH=a@b SUBMITTER=c@d"), T("a@b"));
    EXPECT_RELAYED(T("MAIL FROM:<> SUBMITTER=c@d AUTH=a@b"), T("a@b"));
    EXPECT_RELAYED(T("MAIL FROM:<> SUBMITTER=c@d X X AUTH=a@b X"), T("a@b"));
    EXPECT_ABSENT(T("MAIL FROM:<> SUBMITTER=c@d"));
}

/* "503 if a transaction is open; then grammar" */
static void a_second_mail(void) {
    open_both();
    EXPECT_MAIL(ANNAS, T("MAIL FROM:<a>"), UMBRELNIC_ABSENT);
    EXPECT_REPLY(ANNAS, T("MAIL FROM:<a>"), "503 5.5.1 Not permitted now");
    EXPECT_REPLY(ANNAS, T("MAIL"), "503 5.5.1 Not permitted now");
    EXPECT_REPLY(ANNAS, T("MAIL FROM:<a> AUTH=b"), "503 5.5.1 Not permitted now");
    EXPECT_MAIL(NOBODYS, T("MAIL FROM:<a>"), UMBRELNIC_NULL);
    EXPECT_DONE(call_mail_ended(ANNAS));
    EXPECT_REPLY(NOBODYS, T("MAIL FROM:<a>"), "503 5.5.1 Not permitted now");
    EXPECT_MAIL(ANNAS, T("MAIL FROM:<a>"), UMBRELNIC_ABSENT);
}

/* MAIL needs no greeting, and a session that said HELO has the parameters too. */
static void mail_without_a_greeting(void) {
    make_server();
    EXPECT_OPENED(UMBRELNIC_SMTP, 0, 1);
    EXPECT_MAIL(1, T("MAIL FROM:<> AUTH=a@b"), UMBRELNIC_NULL);
    EXPECT_FORWARD(1, T("HELO a"));
    EXPECT_MAIL(1, T("MAIL FROM:<> AUTH=<> SUBMITTER=a@b"), UMBRELNIC_NULL);
}

int main(void) {
    static const struct test tests[] = {
        TEST(good_lines),
        TEST(bad_lines),
        TEST(lines_that_are_cut),
        TEST(null_senders),
        TEST(addresses),
        TEST(values_that_are_no_address),
        TEST(values_that_are_no_xtext),
        TEST(every_octet_of_xtext),
        TEST(identities_once_each),
        TEST(a_second_mail),
        TEST(mail_without_a_greeting),
    };
    return RUN_TESTS("mail", tests);
}
