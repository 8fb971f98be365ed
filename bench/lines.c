/* The proved readings of lines beside plain C. */
#include "plain.h"
#include <stdio.h>
#include <string.h>

struct reading bench_command(uint64_t profile, const uint8_t *line, size_t size);
struct reading bench_response(uint64_t profile, const uint8_t *line, size_t size);

/* --- the contenders, in the shape of a row --- */

static uint64_t kept(struct reading reading, uint8_t *out) {
    memcpy(out, &reading, sizeof reading);
    return reading.kind;
}

static uint64_t command_by_proved(const uint8_t *in, size_t size, uint8_t *out, size_t room) {
    (void)room;
    return kept(bench_command(SMTP, in, size), out);
}

static uint64_t command_by_plain(const uint8_t *in, size_t size, uint8_t *out, size_t room) {
    (void)room;
    return kept(plain_command(SMTP, in, size), out);
}

static uint64_t response_by_proved(const uint8_t *in, size_t size, uint8_t *out, size_t room) {
    (void)room;
    return kept(bench_response(SMTP, in, size), out);
}

static uint64_t response_by_plain(const uint8_t *in, size_t size, uint8_t *out, size_t room) {
    (void)room;
    return kept(plain_response(SMTP, in, size), out);
}

static const struct row command_rows[] = {
    {"proved", command_by_proved},
    {"plain C", command_by_plain},
};

static const struct row response_rows[] = {
    {"proved", response_by_proved},
    {"plain C", response_by_plain},
};

/* --- a line that grows --- */

enum { MOST = 20000 };

struct line {
    uint8_t octets[MOST];
    size_t size;
};

static void put(struct line *line, const char *text) {
    size_t size = strlen(text);
    memcpy(line->octets + line->size, text, size);
    line->size += size;
}

static void put_octet(struct line *line, uint8_t octet) {
    line->octets[line->size] = octet;
    line->size += 1;
}

/* Letters and digits, which stand anywhere in a line; of base64 they are letters too. */
static void fill(struct line *line, size_t size) {
    static const char alphabet[] = "ABCDEFGHIJKLMNOPQRSTUVWXYZabcdefghijklmnopqrstuvwxyz0123456789";
    while (line->size < size) {
        put_octet(line, (uint8_t)alphabet[draw(sizeof alphabet - 1)]);
    }
}

/* --- the inputs of the tables --- */

enum { COMMAND_LIMIT = 510, MAIL_LIMIT = 1010 };

static size_t give(const struct line *line, uint8_t *in) {
    memcpy(in, line->octets, line->size);
    return line->size;
}

/* A beginning, and letters up to the length. */
static const char *const beginnings[] = {"EHLO ", "NOOP ", "AUTH GSSAPI ", ""};
enum { BY_EHLO, BY_NOOP, BY_AUTH, BY_NOTHING };

static size_t make_filled(size_t length, size_t choice, uint8_t *in) {
    struct line line = {.size = 0};
    if (choice != BY_NOTHING && length > COMMAND_LIMIT) {
        return NO_INPUT;
    }
    put(&line, beginnings[choice]);
    fill(&line, length);
    return give(&line, in);
}

static size_t make_auth_alone(size_t length, size_t choice, uint8_t *in) {
    struct line line = {.size = 0};
    (void)choice;
    put(&line, "AUTH SCRAM-SHA-1");
    return length == line.size ? give(&line, in) : NO_INPUT;
}

/* An address up to an index, one octet in eight of its second half escaped. */
static void put_address(struct line *line, size_t to) {
    size_t middle = (line->size + to) / 2;
    fill(line, middle);
    put(line, "@");
    while (line->size < to) {
        put(line, draw(8) == 0 && to - line->size >= 3 ? "+2B" : "x");
    }
}

static void put_path(struct line *line, size_t length) {
    put(line, "MAIL FROM:<");
    fill(line, length - 1);
    put(line, ">");
}

static void put_identities(struct line *line, size_t length) {
    put(line, "MAIL FROM:<a@b.c> AUTH=");
    put_address(line, (length + line->size - strlen(" SUBMITTER=")) / 2);
    put(line, " SUBMITTER=");
    put_address(line, length);
}

static void put_short_parameters(struct line *line, size_t length) {
    put(line, "MAIL FROM:<a@b.c>");
    while (length - line->size >= 8) {
        put(line, " K=v");
    }
    put(line, " K=");
    fill(line, length);
}

/* A MAIL line, at the shortest with its path alone. */
enum { PATH, IDENTITIES, SHORT_PARAMETERS };

static size_t make_mail(size_t length, size_t choice, uint8_t *in) {
    static void (*const of[])(struct line *, size_t) = {put_path, put_identities, put_short_parameters};
    struct line line = {.size = 0};
    if (length > MAIL_LIMIT || (choice != PATH && length < 64)) {
        return NO_INPUT;
    }
    of[choice](&line, length);
    return give(&line, in);
}

static const struct table tables[] = {
    {"command", "EHLO", command_rows, 2, make_filled, BY_EHLO},
    {"command", "NOOP", command_rows, 2, make_filled, BY_NOOP},
    {"command", "AUTH alone", command_rows, 2, make_auth_alone, 0},
    {"command", "AUTH initial", command_rows, 2, make_filled, BY_AUTH},
    {"command", "MAIL", command_rows, 2, make_mail, PATH},
    {"command", "MAIL identities", command_rows, 2, make_mail, IDENTITIES},
    {"command", "MAIL parameters", command_rows, 2, make_mail, SHORT_PARAMETERS},
    {"response", "valid", response_rows, 2, make_filled, BY_NOTHING},
};

/* Sizes at which an AUTH line has whole groups of base64, the last two of commands near the limits 510 and 1,010. */
static const size_t lengths[] = {16, 64, 508, 1008, 12284};

/* --- the comparison --- */

static long met[KINDS];

static void report(const char *function, uint64_t profile, const uint8_t *line, size_t size, struct reading got, struct reading want) {
    if (differs()) {
        printf("DIFFERS lines %s: profile %llu, proved %llu %llu %llu %llu, plain C %llu %llu %llu %llu, line ", function,
               (unsigned long long)profile, (unsigned long long)got.kind, (unsigned long long)got.to, (unsigned long long)got.from,
               (unsigned long long)got.length, (unsigned long long)want.kind, (unsigned long long)want.to,
               (unsigned long long)want.from, (unsigned long long)want.length);
        print_octets(line, size);
    }
}

static bool is_same(struct reading a, struct reading b) {
    return a.kind == b.kind && a.to == b.to && a.from == b.from && a.length == b.length;
}

static void compare_command(uint64_t profile, const uint8_t *line, size_t size) {
    struct reading got = bench_command(profile, line, size);
    struct reading want = plain_command(profile, line, size);
    comparisons++;
    met[want.kind]++;
    if (!is_same(got, want)) {
        report("command", profile, line, size, got, want);
    }
}

static void compare_response(uint64_t profile, const uint8_t *line, size_t size) {
    struct reading got = bench_response(profile, line, size);
    struct reading want = plain_response(profile, line, size);
    comparisons++;
    met[want.kind]++;
    if (!is_same(got, want)) {
        report("response", profile, line, size, got, want);
    }
}

static void compare_line(const uint8_t *line, size_t size) {
    compare_command(SMTP, line, size);
    compare_command(POP3, line, size);
    compare_response(draw(2), line, size);
}

/* Octets at which a reading turns. */
static const uint8_t marks[] = " \t==<<>>@@++--__**:/AZazFGfg0919..,!~\"";
static const uint8_t controls[] = {0, 1, 9, 10, 11, 12, 13, 14, 31, 127, 128, 255};

static uint8_t draw_mark(void) {
    return draw(4) == 0 ? controls[draw(COUNT(controls))] : marks[draw(sizeof marks - 1)];
}

static void put_one_of(struct line *line, const char *const *pieces, size_t count) {
    put(line, pieces[draw(count)]);
}

#define PUT_ONE_OF(line, pieces) put_one_of(line, pieces, COUNT(pieces))

/* --- lines made of the grammar's pieces --- */

static const char *const verbs[] = {"EHLO", "HELO", "RSET", "QUIT", "MAIL", "AUTH", "USER", "PASS", "APOP", "NOOP", "AUT", "MAILX", ""};
static const char *const arguments[] = {"", " ", "  ", " a", " client.example.com", "\t", "\ta"};
static const char *const names[] = {"PLAIN", "CRAM-MD5", "X_9", "A", "ABCDEFGHIJKLMNOPQRST", "ABCDEFGHIJKLMNOPQRSTU", "plain", "abcdefghijklmnopqrstu", ""};
static const char *const groups[] = {"Zm9v", "AAAA", "+/09", "Zg==", "Zh==", "Zm8=", "Zm9=", "=AAA", "A===", "====", "AA=A"};
static const char *const wholes[] = {"", "=", "*", "==", "**", "A", "Zm9"};
static const char *const paths[] = {"", "a@b.c", "a b", "<", "\"a\"", "\x01\xff", "a>b"};
static const char *const keywords[] = {"AUTH", "SUBMITTER", "SIZE", "A", "0-", "AUTHX", "AUT", "SUBMITTE", "SUBMITTERS", "-A", ""};
static const char *const atoms[] = {"a", "x", "@", "@", "<", ">", "+40", "+3C", "+3E", "+00", "+2B", "+3d", "+4", "+", "~", "!", "=", "Z9"};
static const char *const values[] = {"<>", "+3C+3E", "<+3E", "+3C>", "a@b", "a@b@c", "@@@", "@@", "@a", "a@", "a+40b", "<>@a", "e+3Dmc2@example.com"};

static void put_base64(struct line *line) {
    if (draw(4) == 0) {
        PUT_ONE_OF(line, wholes);
        return;
    }
    for (size_t count = draw(6); count > 0; count--) {
        put(line, groups[draw(3)]);
    }
    PUT_ONE_OF(line, groups);
}

static void put_value(struct line *line) {
    if (draw(2) == 0) {
        PUT_ONE_OF(line, values);
        return;
    }
    for (size_t count = draw(6); count > 0; count--) {
        PUT_ONE_OF(line, atoms);
    }
}

static void put_parameter(struct line *line) {
    put(line, draw(16) == 0 ? "  " : " ");
    /* the two that have rules of their own as often as all others */
    put(line, keywords[draw(2) == 0 ? draw(2) : draw(COUNT(keywords))]);
    if (draw(8) != 0) {
        put(line, "=");
        put_value(line);
    }
}

static void put_mail(struct line *line) {
    put(line, "MAIL FROM:<");
    PUT_ONE_OF(line, paths);
    put(line, ">");
    for (size_t count = draw(5); count > 0; count--) {
        put_parameter(line);
    }
}

static void put_auth(struct line *line) {
    put(line, "AUTH ");
    PUT_ONE_OF(line, names);
    if (draw(4) != 0) {
        put(line, " ");
        put_base64(line);
    }
}

static void put_verb(struct line *line) {
    PUT_ONE_OF(line, verbs);
    PUT_ONE_OF(line, arguments);
}

static void put_some(struct line *line) {
    static void (*const shapes[])(struct line *) = {put_mail, put_mail, put_mail, put_mail, put_auth, put_auth, put_verb, put_base64};
    shapes[draw(COUNT(shapes))](line);
}

/* --- lines that are damaged --- */

static void change_case(struct line *line) {
    for (size_t i = 0; i < line->size; i++) {
        uint8_t capital = line->octets[i] & 0xdf;
        if ('A' <= capital && capital <= 'Z' && draw(2) == 0) {
            line->octets[i] ^= 0x20;
        }
    }
}

static void damage(struct line *line) {
    for (size_t times = draw(4); times > 0 && line->size > 0; times--) {
        line->octets[draw(line->size)] = draw_mark();
    }
    size_t end = draw(8);
    if (end == 0) {
        /* what is cut off still stands behind the line: who reads past the end takes it for part of it */
        line->size = draw(line->size + 1);
    } else if (end == 1) {
        for (size_t times = 1 + draw(3); times > 0; times--) {
            put_octet(line, draw_mark());
        }
    }
}

static void compare_some(size_t rounds) {
    static struct line line;
    static const uint64_t unlisted[] = {2, 256, 257, (uint64_t)1 << 32, ((uint64_t)1 << 32) + 1, UINT64_MAX};
    for (size_t round = 0; round < rounds; round++) {
        line.size = 0;
        put_some(&line);
        if (draw(4) == 0) {
            change_case(&line);
        }
        if (draw(4) != 0) {
            damage(&line);
        }
        compare_line(line.octets, line.size);
        if (round % 64 == 0) {
            compare_command(unlisted[draw(COUNT(unlisted))], line.octets, line.size);
            compare_response(unlisted[draw(COUNT(unlisted))], line.octets, line.size);
        }
    }
}

/* --- every octet at every place, and between any two --- */

static const char *const bases[] = {
    "EHLO a",
    "HELO a",
    "RSET",
    "QUIT",
    "NOOP",
    "USER a",
    "PASS",
    "APOP a b",
    "AUTH PLAIN",
    "AUTH ABCDEFGHIJKLMNOPQRST",
    "AUTH X =",
    "AUTH PLAIN Zm9v",
    "AUTH CRAM-MD5 Zm9vZg==",
    "AUTH cram-md5 Zm9vZg==",
    "AUTH abcdefghijklmnopqrst",
    "MAIL FROM:<>",
    "MAIL FROM:<a@b.c>",
    "MAIL FROM:<a> X",
    "MAIL FROM:<a> SIZE=1 Y-0=+3d",
    "MAIL FROM:<a> AUTH=<>",
    "MAIL FROM:<a> AUTH=+3C+3E",
    "MAIL FROM:<a> AUTH=a@b",
    "MAIL FROM:<a> AUTH=@@@",
    "MAIL FROM:<a> AUTH=e+3Dmc2@example.com X",
    "MAIL FROM:<a> SUBMITTER=a@b",
    "MAIL FROM:<a> SUBMITTER=a+40b AUTH=<> K=v",
    "MAIL FROM:<a> AUTH=a@b SUBMITTER=c@d",
    "MAIL FROM:<a> AUTH=a@b AUTX=a@b",
    "MAIL FROM:<a> SUBMITTER=a@b SUBMITTEX=a@b",
    "",
    "*",
    "=",
    "Zm9v",
    "Zm9vZm8=",
    "Zm9vZg==",
};

static void compare_replaced(struct line *line, size_t place) {
    uint8_t old = line->octets[place];
    for (int octet = 0; octet < 256; octet++) {
        line->octets[place] = (uint8_t)octet;
        compare_line(line->octets, line->size);
    }
    line->octets[place] = old;
}

static void compare_inserted(const struct line *line, size_t place) {
    static struct line longer;
    memcpy(longer.octets, line->octets, place);
    memcpy(longer.octets + place + 1, line->octets + place, line->size - place);
    longer.size = line->size + 1;
    compare_replaced(&longer, place);
}

static void compare_removed(const struct line *line, size_t place) {
    static struct line shorter;
    memcpy(shorter.octets, line->octets, place);
    memcpy(shorter.octets + place, line->octets + place + 1, line->size - place - 1);
    shorter.size = line->size - 1;
    compare_line(shorter.octets, shorter.size);
}

static void compare_base(const char *base) {
    static struct line line;
    line.size = 0;
    put(&line, base);
    for (size_t size = 0; size <= line.size; size++) {
        compare_line(line.octets, size);
        compare_inserted(&line, size);
    }
    for (size_t place = 0; place < line.size; place++) {
        compare_replaced(&line, place);
        compare_removed(&line, place);
    }
}

/* --- lengths around the limits --- */

static const char *const heads[] = {
    "EHLO ", "RSET", "QUIT ", "NOOP ", "USER ", "MAILX ", "MAIL ", "AUTH PLAIN ", "AUTH GSSAPI ", "AUTH X_Y-9A0 ", "MAIL FROM:<",
    "MAIL FROM:<> K=", "MAIL FROM:<> AUTH=a@", "MAIL FROM:<> SUBMITTER=a@b AUTH=a@", "",
};

/* A head and letters up to a size, as they are and with the last octet or some other changed. */
static void compare_long(const char *head, size_t size) {
    static struct line line;
    line.size = 0;
    put(&line, head);
    fill(&line, size);
    compare_line(line.octets, size);
    for (size_t round = 0; round < 6 && size > 0; round++) {
        size_t place = round < 3 ? size - 1 : draw(size);
        uint8_t old = line.octets[place];
        line.octets[place] = round == 0 ? '>' : draw_mark();
        compare_line(line.octets, size);
        line.octets[place] = old;
    }
}

static void compare_around(size_t limit, size_t reach) {
    for (size_t h = 0; h < COUNT(heads); h++) {
        for (size_t size = limit - reach; size <= limit + reach; size++) {
            compare_long(heads[h], size);
        }
    }
}

static void compare(void) {
    for (size_t b = 0; b < COUNT(bases); b++) {
        compare_base(bases[b]);
    }
    compare_around(600, 600);
    compare_around(12286, 8);
    compare_some(6000000);
    long rarest = comparisons;
    for (size_t kind = 0; kind < KINDS; kind++) {
        rarest = met[kind] < rarest ? met[kind] : rarest;
    }
    printf("lines check: each of the %d kinds at least %ld times\n", KINDS, rarest);
}

static const struct program program = {"lines", tables, COUNT(tables), lengths, COUNT(lengths), compare};

int main(int argc, char **argv) {
    return harness_main(&program, argc, argv);
}
