#include "check.h"
#include <inttypes.h>
#include <stdarg.h>
#include <stdio.h>
#include <stdlib.h>
#include <string.h>

/* --- the runner --- */

static char why[2000];
static const char *at_file;
static int at_line;

void check_at(const char *file, int line) {
    at_file = file;
    at_line = line;
}

/* The first failure of a test is its message; what comes after it may follow from it. */
void fail(const char *format, ...) {
    if (why[0] != '\0') {
        return;
    }
    int size = snprintf(why, sizeof why, "%s:%d: ", at_file, at_line);
    va_list values;
    va_start(values, format);
    vsnprintf(why + size, sizeof why - (size_t)size, format, values);
    va_end(values);
}

void expect_number(const char *what, uint64_t got, uint64_t want) {
    if (got != want) {
        fail("%s: expected %" PRIu64 ", got %" PRIu64, what, want, got);
    }
}

static void free_texts(void);

int run_tests(const char *program, const struct test *tests, size_t count) {
    int status = 0;
    setvbuf(stdout, NULL, _IOLBF, 0);
    for (size_t i = 0; i < count; i++) {
        why[0] = '\0';
        seed(i + 1);
        tests[i].run();
        if (why[0] == '\0') {
            printf("ok %s %s\n", program, tests[i].name);
        } else {
            printf("FAIL %s %s: %s\n", program, tests[i].name, why);
            status = 1;
        }
        free_texts();
        resize_image(0);
    }
    return status;
}

/* --- random numbers (xorshift64*) --- */

static uint64_t state = 1;

void seed(uint64_t start) {
    state = start * 0x9e3779b97f4a7c15u | 1;
}

uint64_t draw_number(void) {
    state ^= state >> 12;
    state ^= state << 25;
    state ^= state >> 27;
    return state * 0x2545f4914f6cdd1du;
}

size_t draw(size_t limit) {
    return (size_t)(draw_number() >> 16) % limit;
}

/* --- texts --- */

struct kept {
    struct kept *next;
    uint8_t octets[];
};
static struct kept *kept;

static uint8_t *keep(size_t size) {
    struct kept *one = malloc(sizeof *one + size);
    if (one == NULL) {
        abort();
    }
    one->next = kept;
    kept = one;
    return one->octets;
}

static void free_texts(void) {
    while (kept != NULL) {
        struct kept *next = kept->next;
        free(kept);
        kept = next;
    }
}

struct text repeated(struct text text, size_t count) {
    uint8_t *octets = keep(text.size * count);
    for (size_t i = 0; i < count; i++) {
        memcpy(octets + i * text.size, text.octets, text.size);
    }
    return (struct text){octets, text.size * count};
}

struct text joined(struct text one, struct text other) {
    uint8_t *octets = keep(one.size + other.size);
    if (one.size > 0) {
        memcpy(octets, one.octets, one.size);
    }
    if (other.size > 0) {
        memcpy(octets + one.size, other.octets, other.size);
    }
    return (struct text){octets, one.size + other.size};
}

struct text first_of(struct text text, size_t size) {
    return (struct text){text.octets, size < text.size ? size : text.size};
}

struct text of_string(const char *string) {
    return (struct text){(const uint8_t *)string, strlen(string)};
}

bool same_text(struct text one, struct text other) {
    return one.size == other.size && (one.size == 0 || memcmp(one.octets, other.octets, one.size) == 0);
}

/* An octet sequence as a message shows it: what is not printable as hex, and only its first octets. */
static const char *shown(struct text text) {
    static char buffers[4][300];
    static size_t turn;
    char *out = buffers[turn++ % 4];
    size_t at = 0;
    for (size_t i = 0; i < text.size && i < 60; i++) {
        uint8_t octet = text.octets[i];
        at += (size_t)snprintf(out + at, 8, 0x20 <= octet && octet < 0x7f && octet != '\\' ? "%c" : "\\x%02x", octet);
    }
    snprintf(out + at, 60, " (%zu octets)", text.size);
    return out;
}

static void expect_text(const char *what, struct text got, struct text want) {
    if (!same_text(got, want)) {
        fail("%s: expected %s, got %s", what, shown(want), shown(got));
    }
}

/* --- lent buffers --- */

struct buffer {
    uint8_t *octets;
    uint8_t *before;
    size_t size;
};

/* What lent buffers hold comes from a stream of its own, so that two runs from one seed are lent other octets. */
static uint64_t noise = 1;

static uint8_t some_octet(void) {
    noise = noise * 6364136223846793005u + 1442695040888963407u;
    return (uint8_t)(noise >> 56);
}

static void *allocate(size_t size) {
    void *octets = malloc(size);
    if (octets == NULL && size > 0) {
        abort();
    }
    return octets;
}

static struct buffer lend(size_t size) {
    struct buffer buffer = {allocate(size), allocate(size), size};
    for (size_t i = 0; i < size; i++) {
        buffer.octets[i] = some_octet();
    }
    if (size > 0) {
        memcpy(buffer.before, buffer.octets, size);
    }
    return buffer;
}

/* The line, name or data that a call reads; of no octets as NULL half the time. */
static struct buffer lend_copy(struct text text) {
    if (text.size == 0 && some_octet() % 2 == 0) {
        return (struct buffer){NULL, NULL, 0};
    }
    struct buffer buffer = lend(text.size);
    if (text.size > 0) {
        memcpy(buffer.octets, text.octets, text.size);
        memcpy(buffer.before, text.octets, text.size);
    }
    return buffer;
}

/* Gives a buffer back, of which only the first octets may have been written. What was written is kept until the next call. */
static struct text take_back(const char *what, struct buffer buffer, uint64_t length, uint8_t *room, size_t room_octets) {
    size_t size = length <= buffer.size && length <= room_octets ? (size_t)length : 0;
    if (size != length) {
        fail("%s: %" PRIu64 " octets were stated, and %zu were lent", what, length, buffer.size);
    }
    for (size_t i = size; i < buffer.size; i++) {
        if (buffer.octets[i] != buffer.before[i]) {
            fail("%s: octet %zu is behind the stated %zu and was written", what, i, size);
            break;
        }
    }
    if (size > 0) {
        memcpy(room, buffer.octets, size);
    }
    free(buffer.octets);
    free(buffer.before);
    return (struct text){room, size};
}

static void untouched(const char *what, struct buffer buffer) {
    take_back(what, buffer, 0, NULL, 0);
}

/* --- the image --- */

struct lent lent = {NULL, 0, UMBRELNIC_REPLY_OCTETS, UMBRELNIC_ANSWER_OCTETS, UMBRELNIC_NAME_OCTETS};

/* What the image has already stays, as far as it fits; the rest is random. 0 frees it, and puts back the usual sizes. */
void resize_image(size_t octets) {
    struct buffer other = lend(octets);
    size_t common = octets < lent.image_octets ? octets : lent.image_octets;
    if (common > 0) {
        memcpy(other.octets, lent.image, common);
    }
    free(lent.image);
    free(other.before);
    lent = (struct lent){other.octets, octets, UMBRELNIC_REPLY_OCTETS, UMBRELNIC_ANSWER_OCTETS, UMBRELNIC_NAME_OCTETS};
}

static uint8_t *image_before(void) {
    uint8_t *before = allocate(lent.image_octets);
    if (lent.image_octets > 0) {
        memcpy(before, lent.image, lent.image_octets);
    }
    return before;
}

static void expect_image(const char *call, uint64_t refusal, uint8_t *before) {
    if (refusal != 0 && lent.image_octets > 0 && memcmp(lent.image, before, lent.image_octets) != 0) {
        fail("%s was refused with %" PRIu64 " and changed the image", call, refusal);
    }
    free(before);
}

/* --- the calls --- */

static uint8_t heard_octets[2 * UMBRELNIC_REPLY_OCTETS];
static uint8_t handed_octets[2 * UMBRELNIC_ANSWER_OCTETS];
static uint8_t named_octets[2 * UMBRELNIC_NAME_OCTETS];
struct text heard;
struct text handed;
struct text named;

uint64_t call_make(uint64_t connection, uint64_t ticket) {
    uint8_t *before = image_before();
    uint64_t refusal = tested.make(lent.image, lent.image_octets, connection, ticket);
    expect_image("make", refusal, before);
    return refusal;
}

uint64_t call_add(struct text name, uint64_t client_first, uint64_t needs_protection) {
    uint8_t *before = image_before();
    struct buffer lent_name = lend_copy(name);
    uint64_t refusal = tested.add(lent.image, lent.image_octets, lent_name.octets, name.size, client_first, needs_protection);
    expect_image("add", refusal, before);
    untouched("add's name", lent_name);
    return refusal;
}

struct umbrelnic_opened call_open(uint64_t profile, uint64_t is_protected) {
    uint8_t *before = image_before();
    struct umbrelnic_opened opened = tested.open(lent.image, lent.image_octets, profile, is_protected);
    expect_image("open", opened.refusal, before);
    if (opened.refusal != 0) {
        expect_number("a refused open's connection", opened.connection, 0);
    }
    return opened;
}

static bool writes_answer(const struct umbrelnic_line_answer *answer) {
    return answer->kind == UMBRELNIC_QUERY || (answer->kind == UMBRELNIC_FORWARD && answer->identity == UMBRELNIC_ADDRESS);
}

/* The numbers that an answer of its kind has not. */
static void expect_fields(const struct umbrelnic_line_answer *answer) {
    bool query = answer->kind == UMBRELNIC_QUERY;
    if (answer->refusal != 0) {
        expect_number("a refused line's kind", answer->kind, 0);
        expect_number("a refused line's length", answer->length, 0);
    }
    if (answer->refusal != 0 || !query) {
        expect_number("the ticket where there is no query", answer->ticket, 0);
        expect_number("starts where there is no query", answer->starts, 0);
    }
    if (answer->refusal != 0 || answer->kind != UMBRELNIC_FORWARD) {
        expect_number("the identity where there is no forward", answer->identity, 0);
    }
    if (answer->kind == UMBRELNIC_FORWARD && answer->identity != UMBRELNIC_ADDRESS) {
        expect_number("a forward's length without address", answer->length, 0);
    }
    if (answer->kind > UMBRELNIC_REPLY || answer->starts > 1 || answer->identity > UMBRELNIC_ADDRESS) {
        fail("a kind, starts or identity that is not listed");
    }
}

struct umbrelnic_line_answer call_line(uint64_t connection, struct text line) {
    uint8_t *before = image_before();
    struct buffer lent_line = lend_copy(line);
    struct buffer reply = lend(lent.reply_octets);
    struct buffer answer = lend(lent.answer_octets);
    struct umbrelnic_line_answer got = tested.line(lent.image, lent.image_octets, connection, lent_line.octets, line.size,
                                                   reply.octets, reply.size, answer.octets, answer.size);
    expect_image("line", got.refusal, before);
    expect_fields(&got);
    untouched("the line", lent_line);
    heard = take_back("the reply buffer", reply, got.kind == UMBRELNIC_REPLY ? got.length : 0, heard_octets, sizeof heard_octets);
    handed = take_back("the answer buffer", answer, writes_answer(&got) ? got.length : 0, handed_octets, sizeof handed_octets);
    return got;
}

struct umbrelnic_said call_verdict(uint64_t ticket, uint64_t verdict, struct text data) {
    uint8_t *before = image_before();
    struct buffer lent_data = lend_copy(data);
    struct buffer reply = lend(lent.reply_octets);
    struct buffer answer = lend(lent.answer_octets);
    struct umbrelnic_said said = tested.verdict(lent.image, lent.image_octets, ticket, verdict, lent_data.octets, data.size,
                                                reply.octets, reply.size, answer.octets, answer.size);
    expect_image("verdict", said.refusal, before);
    if (said.refusal != 0) {
        expect_number("a refused verdict's length", said.length, 0);
    }
    untouched("the verdict's data", lent_data);
    heard = take_back("the reply buffer", reply, said.length, heard_octets, sizeof heard_octets);
    untouched("a verdict's answer buffer", answer);
    return said;
}

uint64_t call_mail_ended(uint64_t connection) {
    uint8_t *before = image_before();
    uint64_t refusal = tested.mail_ended(lent.image, lent.image_octets, connection);
    expect_image("mail ended", refusal, before);
    return refusal;
}

struct umbrelnic_identity call_who(uint64_t connection) {
    uint8_t *before = image_before();
    struct buffer name = lend(lent.name_octets);
    struct umbrelnic_identity who = tested.who(lent.image, lent.image_octets, connection, name.octets, name.size);
    /* who never changes the image, refused or not */
    expect_image("who", 1, before);
    if (who.refusal != 0) {
        expect_number("a refused who's signed_in", who.signed_in, 0);
    }
    if (who.signed_in != 1) {
        expect_number("signed_in", who.signed_in, 0);
        expect_number("the length of nobody's name", who.length, 0);
    }
    named = take_back("the name buffer", name, who.length, named_octets, sizeof named_octets);
    return who;
}

uint64_t call_close(uint64_t connection) {
    uint8_t *before = image_before();
    uint64_t refusal = tested.close(lent.image, lent.image_octets, connection);
    expect_image("close", refusal, before);
    return refusal;
}

/* --- expectations --- */

void expect_made(uint64_t connection, uint64_t ticket) {
    resize_image(UMBRELNIC_IMAGE_OCTETS);
    expect_number("make", call_make(connection, ticket), 0);
}

void expect_added(struct text name, uint64_t client_first, uint64_t needs_protection) {
    expect_number("add", call_add(name, client_first, needs_protection), 0);
}

void expect_opened(uint64_t profile, uint64_t is_protected, uint64_t connection) {
    struct umbrelnic_opened opened = call_open(profile, is_protected);
    expect_number("open's refusal", opened.refusal, 0);
    expect_number("the connection opened", opened.connection, connection);
}

static void expect_kind(struct umbrelnic_line_answer answer, uint64_t kind, struct text line) {
    static const char *const kinds[] = {"forward", "query", "reply"};
    if (answer.refusal != 0) {
        fail("line %s: expected a %s, got refusal %" PRIu64, shown(line), kinds[kind], answer.refusal);
    } else if (answer.kind != kind) {
        fail("line %s: expected a %s, got kind %" PRIu64 " %s", shown(line), kinds[kind], answer.kind, shown(heard));
    }
}

void expect_mail(uint64_t connection, struct text line, uint64_t identity) {
    struct umbrelnic_line_answer answer = call_line(connection, line);
    expect_kind(answer, UMBRELNIC_FORWARD, line);
    if (answer.identity != identity) {
        fail("line %s: expected identity %" PRIu64 ", got %" PRIu64, shown(line), identity, answer.identity);
    }
}

void expect_forward(uint64_t connection, struct text line) {
    expect_mail(connection, line, UMBRELNIC_NO_MAIL);
}

void expect_address(uint64_t connection, struct text line, struct text address) {
    expect_mail(connection, line, UMBRELNIC_ADDRESS);
    expect_text("address", handed, address);
}

static void expect_asked(uint64_t connection, struct text line, uint64_t ticket, uint64_t starts, struct text decoded) {
    struct umbrelnic_line_answer answer = call_line(connection, line);
    expect_kind(answer, UMBRELNIC_QUERY, line);
    expect_number("ticket", answer.ticket, ticket);
    expect_number("starts", answer.starts, starts);
    expect_text("response", handed, decoded);
}

void expect_query(uint64_t connection, struct text line, uint64_t ticket, struct text decoded) {
    expect_asked(connection, line, ticket, 0, decoded);
}

void expect_start(uint64_t connection, struct text line, uint64_t ticket) {
    expect_asked(connection, line, ticket, 1, NO_OCTETS);
}

void expect_reply(uint64_t connection, struct text line, const char *text) {
    expect_kind(call_line(connection, line), UMBRELNIC_REPLY, line);
    expect_text("reply", heard, joined(of_string(text), T("\r\n")));
}

void expect_said(uint64_t ticket, uint64_t verdict, struct text data, const char *text) {
    expect_number("verdict's refusal", call_verdict(ticket, verdict, data).refusal, 0);
    expect_text("reply", heard, joined(of_string(text), T("\r\n")));
}

void expect_name(uint64_t connection, struct text name) {
    struct umbrelnic_identity who = call_who(connection);
    expect_number("who's refusal", who.refusal, 0);
    expect_number("signed_in", who.signed_in, 1);
    expect_text("name", named, name);
}

void expect_nobody(uint64_t connection) {
    struct umbrelnic_identity who = call_who(connection);
    expect_number("who's refusal", who.refusal, 0);
    expect_number("signed_in", who.signed_in, 0);
}

/* --- servers --- */

void make_server(void) {
    expect_made(1, 1);
    expect_added(T("PLAIN"), 1, 1);
    expect_added(T("CRAM-MD5"), 0, 0);
}

uint64_t open_smtp(void) {
    uint64_t connection = call_open(UMBRELNIC_SMTP, 1).connection;
    expect_forward(connection, T("EHLO a.example"));
    return connection;
}

uint64_t open_pop3(void) {
    return call_open(UMBRELNIC_POP3, 1).connection;
}

uint64_t next_ticket(void) {
    return get_number(lent.image + NEXT_TICKET);
}

void sign_in(uint64_t connection, struct text name) {
    uint64_t ticket = next_ticket();
    expect_query(connection, T("AUTH PLAIN Zm9v"), ticket, T("foo"));
    expect_number("verdict", call_verdict(ticket, UMBRELNIC_SUCCESS, name).refusal, 0);
}

uint8_t *slot_at(size_t index) {
    return lent.image + SLOTS + index * SLOT_OCTETS;
}

size_t slot_index(uint64_t connection) {
    for (size_t i = 0; i < UMBRELNIC_MOST_CONNECTIONS; i++) {
        if (slot_at(i)[IS_OPEN] == 1 && get_number(slot_at(i) + NUMBER) == connection) {
            return i;
        }
    }
    return UMBRELNIC_MOST_CONNECTIONS;
}

uint8_t *slot_of(uint64_t connection) {
    size_t index = slot_index(connection);
    return index < UMBRELNIC_MOST_CONNECTIONS ? slot_at(index) : NULL;
}

const char *const hears[2][REPLIES] = {
    [UMBRELNIC_SMTP] = {
        [SUCCEEDED] = "235 2.7.0 Authentication succeeded",
        [TRANSITION] = "432 4.7.12 Password transition needed",
        [TEMPORARY] = "454 4.7.0 Temporary authentication failure",
        [ANSWER_TOO_LONG] = "500 5.5.6 Authentication line too long",
        [NOT_UNDERSTOOD] = "500 5.5.2 Line not understood",
        [SYNTAX] = "501 5.5.2 Syntax error",
        [CANCELLED] = "501 5.7.0 Authentication cancelled",
        [NO_INITIAL] = "501 5.7.0 Initial response not allowed",
        [WRONG_MOMENT] = "503 5.5.1 Not permitted now",
        [UNAVAILABLE] = "504 5.5.4 Mechanism not available",
        [WEAK] = "534 5.7.9 Mechanism too weak",
        [REJECTED] = "535 5.7.8 Credentials not accepted",
        [EMPTY_CHALLENGE] = "334 ",
    },
    [UMBRELNIC_POP3] = {
        [SUCCEEDED] = "+OK Authenticated",
        [TRANSITION] = "-ERR [AUTH] Password transition needed",
        [TEMPORARY] = "-ERR [SYS/TEMP] Temporary authentication failure",
        [ANSWER_TOO_LONG] = "-ERR Authentication line too long",
        [NOT_UNDERSTOOD] = "-ERR Line not understood",
        [SYNTAX] = "-ERR Syntax error",
        [CANCELLED] = "-ERR Authentication cancelled",
        [NO_INITIAL] = "-ERR Initial response not allowed",
        [WRONG_MOMENT] = "-ERR Not permitted now",
        [UNAVAILABLE] = "-ERR Mechanism not available",
        [WEAK] = "-ERR Mechanism too weak",
        [REJECTED] = "-ERR [AUTH] Credentials not accepted",
        [EMPTY_CHALLENGE] = "+ ",
    },
};
