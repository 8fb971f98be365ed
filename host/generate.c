#include "generate.h"
#include <string.h>

enum { LONGEST = 110000 };

struct line {
    uint8_t octets[LONGEST];
    size_t size;
};
static struct line line;

const char *const mechanism_names[MECHANISM_NAMES] = {
    "PLAIN", "CRAM-MD5", "A", "B-_9", "ABCDEFGHIJKLMNOPQRST", "ABCDEFGHIJKLMNOPQRSU", "ABCDEFGHIJKLMNOPQRS",
    "EXTERNAL", "LOGIN", "XOAUTH2", "PLAINS", "plain", "ABCDEFGHIJKLMNOPQRSTU", "A.B",
};

static void put_octet(uint8_t octet) {
    if (line.size < LONGEST) {
        line.octets[line.size++] = octet;
    }
}

static void put(const char *text) {
    for (; *text != '\0'; text++) {
        put_octet((uint8_t)*text);
    }
}
#define ONE_OF(array) ((array)[draw(COUNT(array))])
#define PUT_ONE_OF(array) put(ONE_OF(array))

static void fill(size_t size) {
    while (line.size < size) {
        put_octet((uint8_t)"ABCDEFGHIJKLMNOPabcdefghij012345"[draw(32)]);
    }
}

/* --- base64 --- */

static void put_letters(size_t count) {
    static const char alphabet[] = "ABCDEFGHIJKLMNOPQRSTUVWXYZabcdefghijklmnopqrstuvwxyz0123456789+/";
    for (; count > 0; count--) {
        put_octet((uint8_t)alphabet[draw(64)]);
    }
}

static void put_groups(size_t groups) {
    static const char *const ends[] = {"Zg==", "Zm8=", "AA==", "//8=", "AAA="};
    put_letters(4 * groups);
    if (draw(2) == 0) {
        PUT_ONE_OF(ends);
    }
}

static void put_base64(void) {
    static const char *const bad[] = {
        "Zh==", "Zm9=", "A", "AA", "AAA", "====", "A===", "=", "==", "*", "AA=A", "Zg==Zg==", "AAA=AAAA", "Zm9v Zm9v", "Zm9-",
        "Zm9_",
    };
    if (draw(8) == 0) {
        PUT_ONE_OF(bad);
    } else {
        put_groups(draw(16) == 0 ? draw(150) : draw(6));
    }
}

/* --- commands --- */

static void put_greeting(void) {
    static const char *const lines[] = {"EHLO a.example", "ehlo a", "EHLO  ", "EHLO a", "HELO a", "EHLO", "EHLO ", "HELO "};
    PUT_ONE_OF(lines);
}

static void put_verb(void) {
    static const char *const verbs[] = {
        "EHLO", "HELO", "RSET", "QUIT", "NOOP", "RCPT", "DATA", "USER", "PASS", "APOP", "AUTH", "MAIL", "STAT", "EHLOX", "RSE",
        "", "AUTHX",
    };
    static const char *const arguments[] = {"", "", "", " ", " a", "  ", " a b", "\t", "\ta", "=a", " TO:<a@b>", "x"};
    PUT_ONE_OF(verbs);
    PUT_ONE_OF(arguments);
}

/* A mechanism's name, in one of four lines with some of its letters small. */
static void put_spelled(const char *name) {
    bool turns = draw(4) == 0;
    for (; *name != '\0'; name++) {
        bool capital = 'A' <= *name && *name <= 'Z';
        put_octet((uint8_t)(turns && capital && draw(2) == 0 ? *name - 'A' + 'a' : *name));
    }
}

static void put_auth(void) {
    static const char *const verbs[] = {"AUTH ", "AUTH ", "AUTH ", "auth ", "AUTH  ", "AUTH\t"};
    put(draw(4) != 0 ? verbs[0] : ONE_OF(verbs));
    put_spelled(mechanism_names[draw(3) == 0 ? draw(MECHANISM_NAMES) : draw(3)]);
    size_t form = draw(8);
    if (form < 4) {
        put(" ");
        put_base64();
    } else if (form == 4) {
        static const char *const rests[] = {" =", " ", " = ", "  ", " *", " Zm9v ", " Zm9v Zm9v", "\t"};
        put(draw(2) == 0 ? rests[0] : ONE_OF(rests));
    }
}

static void put_value(void) {
    static const char *const values[] = {
        "<>", "a@b", "a@b.example", "e+3Dmc2@example.com", "+3C+3E", "@@@", "a@b@c", "a+40b", "+00@+FF",
    };
    static const char *const atoms[] = {"a", "@", "<", ">", "+40", "+3C", "+2B", "+3d", "+4", "+", "~", "=", "\x7f", "\xe9"};
    if (draw(4) != 0) {
        PUT_ONE_OF(values);
        return;
    }
    for (size_t count = draw(6); count > 0; count--) {
        PUT_ONE_OF(atoms);
    }
}

static void put_parameter(void) {
    static const char *const keywords[] = {
        "AUTH", "SUBMITTER", "auth", "Submitter", "SIZE", "BODY", "X-Y", "8BIT", "AUTHX", "AUT", "SUBMITTERS", "-X", "", "X_",
    };
    put(draw(24) == 0 ? "  " : " ");
    put(draw(3) != 0 ? keywords[draw(5)] : ONE_OF(keywords));
    if (draw(8) != 0) {
        put("=");
        put_value();
    }
}

static void put_mail(void) {
    static const char *const starts[] = {"MAIL FROM:<", "MAIL FROM:<", "mail from:<", "MAIL FROM: <", "MAIL FROM:", "MAIL "};
    static const char *const paths[] = {"", "a@b", "a b <c", "\"x\"@y", "\xff", "a@b.example"};
    put(draw(4) != 0 ? starts[0] : ONE_OF(starts));
    PUT_ONE_OF(paths);
    put(draw(24) == 0 ? "" : ">");
    for (size_t count = draw(4); count > 0; count--) {
        put_parameter();
    }
}

/* --- answers --- */

static void put_answer(void) {
    size_t form = draw(40);
    if (form < 30) {
        put_groups(draw(12) == 0 ? draw(40) : draw(5));
    } else if (form == 30) {
        put_groups(3071 - draw(4));
    } else if (form == 31) {
        fill(12280 + draw(12));
    } else if (form == 32) {
        put("*");
    } else if (form == 33) {
        put_auth();
    } else {
        put_base64();
    }
}

/* --- near the limits, and rubbish --- */

static void put_long(void) {
    static const char *const heads[] = {
        "EHLO ", "NOOP ", "USER ", "MAIL ", "MAILX ", "AUTH PLAIN ", "AUTH A ", "MAIL FROM:<", "MAIL FROM:<> X=",
        "MAIL FROM:<> AUTH=a@", "RSET ", "",
    };
    static const size_t limits[] = {253, 510, 1010, 1010, 12286};
    PUT_ONE_OF(heads);
    if (draw(200) == 0) {
        fill(draw(LONGEST));
    } else {
        fill(ONE_OF(limits) - 3 + draw(7));
    }
    if (draw(4) == 0) {
        put(">");
    }
}

static void put_rubbish(void) {
    for (size_t count = draw(draw(8) == 0 ? 600 : 30); count > 0; count--) {
        put_octet((uint8_t)draw(256));
    }
}

static void damage(void) {
    static const char marks[] = "\0\r\n \t=+*@<>Aa/_-\x7f\x80";
    for (size_t count = 1 + draw(2); count > 0 && line.size > 0; count--) {
        uint8_t octet = draw(2) == 0 ? (uint8_t)marks[draw(sizeof marks - 1)] : (uint8_t)draw(256);
        line.octets[draw(line.size)] = octet;
    }
    if (draw(4) == 0) {
        line.size = draw(line.size + 1);
    } else if (draw(4) == 0) {
        put_octet((uint8_t)marks[draw(sizeof marks - 1)]);
    }
}

/* What brings the session in a slot on, if anything does. */
static bool put_useful(const uint8_t *slot) {
    static const char *const endings[] = {"RSET", "EHLO a", "rset", "HELO a"};
    if (slot[PROFILE] == UMBRELNIC_POP3) {
        return false;
    }
    if (slot[TRANSACTION] == 1) {
        PUT_ONE_OF(endings);
    } else if (slot[PHASE] == SIGNED_IN) {
        put_mail();
    } else if (slot[GREETED] == 0) {
        put_greeting();
    } else {
        put_auth();
    }
    return true;
}

static void put_command(const uint8_t *slot) {
    if (slot != NULL && draw(2) == 0 && put_useful(slot)) {
        return;
    }
    size_t form = draw(40);
    if (form < 22) {
        put_auth();
    } else if (form < 31) {
        put_mail();
    } else if (form < 38) {
        put_verb();
    } else if (form == 38) {
        put_long();
    } else {
        put_rubbish();
    }
}

struct text some_line(const uint8_t *slot) {
    line.size = 0;
    bool awaiting = slot != NULL && slot[PHASE] == AWAITING;
    /* now and then what another phase would be sent */
    if (awaiting != (draw(32) == 0)) {
        put_answer();
    } else {
        put_command(slot);
    }
    if (draw(12) == 0) {
        damage();
    }
    return (struct text){line.octets, line.size};
}

struct text some_data(uint64_t verdict) {
    static const size_t challenges[] = {0, 1, 2, 3, 3, 4, 20, 60, 9209, 9210, 9211};
    static const size_t names[] = {1, 4, 4, 12, 40, 63, 64, 65, 0};
    line.size = 0;
    if (draw(24) == 0) {
        put_rubbish();
    } else if (verdict == UMBRELNIC_CHALLENGE) {
        for (size_t count = challenges[draw(draw(8) == 0 ? COUNT(challenges) : 7)]; count > 0; count--) {
            put_octet((uint8_t)draw(256));
        }
    } else if (verdict == UMBRELNIC_SUCCESS) {
        for (size_t count = names[draw(draw(8) == 0 ? COUNT(names) : 7)]; count > 0; count--) {
            put_octet((uint8_t)('!' + draw(draw(40) == 0 ? 96 : 94)));
        }
    }
    return (struct text){line.octets, line.size};
}
