/* Base64 through answers and initial responses: "the 64-letter alphabet, length a multiple of four, one or two "=" only at the end,
   unused bits zero". */
#include "check.h"

/* One text as an answer on a connection that is left at rest. */
static void expect_answer(uint64_t connection, struct text text, struct text octets) {
    uint64_t ticket = next_ticket();
    expect_reply(connection, T("AUTH PLAIN"), "334 ");
    expect_query(connection, text, ticket, octets);
    expect_said(ticket, UMBRELNIC_REJECTED, NO_OCTETS, "535 5.7.8 Credentials not accepted");
}

static void expect_initial(uint64_t connection, struct text text, struct text octets) {
    uint64_t ticket = next_ticket();
    expect_query(connection, joined(T("AUTH PLAIN "), text), ticket, octets);
    expect_said(ticket, UMBRELNIC_REJECTED, NO_OCTETS, "535 5.7.8 Credentials not accepted");
}

static void expect_decodes(uint64_t connection, struct text text, struct text octets) {
    expect_answer(connection, text, octets);
    if (text.size > 0) {
        expect_initial(connection, text, octets);
    }
}
#define EXPECT_DECODES(...) (AT, expect_decodes(__VA_ARGS__))

static void expect_malformed(uint64_t connection, struct text text) {
    expect_reply(connection, joined(T("AUTH PLAIN "), text), "501 5.5.2 Syntax error");
    expect_reply(connection, T("AUTH PLAIN"), "334 ");
    expect_reply(connection, text, "501 5.5.2 Syntax error");
}
#define EXPECT_MALFORMED(...) (AT, expect_malformed(__VA_ARGS__))

static uint64_t fresh(void) {
    make_server();
    return open_smtp();
}

static void rfc_4648_section_10(void) {
    uint64_t connection = fresh();
    EXPECT_DECODES(connection, T(""), T(""));
    EXPECT_DECODES(connection, T("Zg=="), T("f"));
    EXPECT_DECODES(connection, T("Zm8="), T("fo"));
    EXPECT_DECODES(connection, T("Zm9v"), T("foo"));
    EXPECT_DECODES(connection, T("Zm9vYg=="), T("foob"));
    EXPECT_DECODES(connection, T("Zm9vYmE="), T("fooba"));
    EXPECT_DECODES(connection, T("Zm9vYmFy"), T("foobar"));
}

static void octets_of_every_kind(void) {
    uint64_t connection = fresh();
    EXPECT_DECODES(connection, T("AA=="), T("\0"));
    EXPECT_DECODES(connection, T("AAAA"), T("\0\0\0"));
    EXPECT_DECODES(connection, T("////"), T("\377\377\377"));
    EXPECT_DECODES(connection, T("//8="), T("\377\377"));
    EXPECT_DECODES(connection, T("/w=="), T("\377"));
    EXPECT_DECODES(connection, T("DQoA"), T("\r\n\0"));
    EXPECT_DECODES(connection, T("ABCDEFGHIJKLMNOPQRSTUVWXYZabcdefghijklmnopqrstuvwxyz0123456789+/"),
                   T("\x00\x10\x83\x10\x51\x87\x20\x92\x8b\x30\xd3\x8f\x41\x14\x93\x51\x55\x97\x61\x96\x9b\x71\xd7\x9f"
                     "\x82\x18\xa3\x92\x59\xa7\xa2\x9a\xab\xb2\xdb\xaf\xc3\x1c\xb3\xd3\x5d\xb7\xe3\x9e\xbb\xf3\xdf\xbf"));
}

static void lengths_that_are_no_multiple_of_four(void) {
    uint64_t connection = fresh();
    for (size_t size = 1; size < 40; size++) {
        if (size % 4 != 0) {
            EXPECT_MALFORMED(connection, repeated(T("A"), size));
        }
    }
    EXPECT_MALFORMED(connection, T("Zg="));
    EXPECT_MALFORMED(connection, T("Zm9vZg="));
    EXPECT_MALFORMED(connection, T("Zm8=="));
}

static void padding_only_at_the_end(void) {
    static const char *const bad[] = {
        "====", "A===", "=AAA", "A=AA", "AA=A", "AAA=BBB", "AAA=BBBB", "AA==AAAA", "AA==AA==", "AAA=AAA=", "AAAA====",
        "AAAA===A", "AAAAA===", "AAAA=AAA", "==AA", "=A==", "A=A=", "=AA=", "==A=",
    };
    uint64_t connection = fresh();
    for (size_t i = 0; i < COUNT(bad); i++) {
        EXPECT_MALFORMED(connection, of_string(bad[i]));
    }
}

static const char alphabet[] = "ABCDEFGHIJKLMNOPQRSTUVWXYZabcdefghijklmnopqrstuvwxyz0123456789+/";

/* The last letter of a text that ends in "=" has two unused bits, with "==" four. */
static void unused_bits(void) {
    uint64_t connection = fresh();
    for (unsigned number = 0; number < 64; number++) {
        char one[] = {'A', 'A', alphabet[number], '='};
        char two[] = {'A', alphabet[number], '=', '='};
        uint8_t octets[] = {0, (uint8_t)(number >> 2)};
        uint8_t octet[] = {(uint8_t)(number >> 4)};
        struct text text_one = {(const uint8_t *)one, 4};
        struct text text_two = {(const uint8_t *)two, 4};
        if (number % 4 == 0) {
            EXPECT_DECODES(connection, text_one, (struct text){octets, 2});
        } else {
            EXPECT_MALFORMED(connection, text_one);
        }
        if (number % 16 == 0) {
            EXPECT_DECODES(connection, text_two, (struct text){octet, 1});
        } else {
            EXPECT_MALFORMED(connection, text_two);
        }
    }
}

static int number_of(int octet) {
    for (int number = 0; number < 64; number++) {
        if (alphabet[number] == octet) {
            return number;
        }
    }
    return -1;
}

/* Every octet at every place of a group: in an answer, and in the middle of a longer one. */
static void every_octet(void) {
    uint64_t connection = fresh();
    for (int octet = 0; octet < 256; octet++) {
        for (int place = 0; place < 4; place++) {
            uint8_t text[12] = "AAAAAAAAAAAA";
            text[4 + place] = (uint8_t)octet;
            int number = number_of(octet);
            uint64_t ticket = next_ticket();
            EXPECT_REPLY(connection, T("AUTH PLAIN"), "334 ");
            if (number < 0) {
                EXPECT_REPLY(connection, (struct text){text, 12}, "501 5.5.2 Syntax error");
                continue;
            }
            uint32_t bits = (uint32_t)number << (18 - 6 * place);
            uint8_t octets[9] = {0, 0, 0, (uint8_t)(bits >> 16), (uint8_t)(bits >> 8), (uint8_t)bits};
            EXPECT_QUERY(connection, (struct text){text, 12}, ticket, (struct text){octets, 9});
            EXPECT_SAID(ticket, UMBRELNIC_REJECTED, NO_OCTETS, "535 5.7.8 Credentials not accepted");
        }
    }
}

/* "=" is an initial response of no octets, and no answer. */
static void the_lone_pad(void) {
    uint64_t connection = fresh();
    EXPECT_QUERY(connection, T("AUTH PLAIN ="), 1, NO_OCTETS);
    EXPECT_SAID(1, UMBRELNIC_CHALLENGE, NO_OCTETS, "334 ");
    EXPECT_REPLY(connection, T("="), "501 5.5.2 Syntax error");
}

int main(void) {
    static const struct test tests[] = {
        TEST(rfc_4648_section_10),
        TEST(octets_of_every_kind),
        TEST(lengths_that_are_no_multiple_of_four),
        TEST(padding_only_at_the_end),
        TEST(unused_bits),
        TEST(every_octet),
        TEST(the_lone_pad),
    };
    return RUN_TESTS("base64", tests);
}
