/* The third demand in small: two lists of calls that differ only in client answers, each pair valid base64 of equal length with equally
   many closing "=", give the same refusals and answers, and equal images after every call. Only the octets handed to the password
   service may differ. */
#include "check.h"
#include <stdlib.h>
#include <string.h>

/* --- what can be seen of a run --- */

struct trace {
    uint8_t *octets;
    size_t size;
    size_t room;
};

static void note(struct trace *trace, const void *octets, size_t size) {
    if (trace->size + size > trace->room) {
        trace->room = 2 * (trace->size + size);
        trace->octets = realloc(trace->octets, trace->room);
        if (trace->octets == NULL) {
            abort();
        }
    }
    if (size > 0) {
        memcpy(trace->octets + trace->size, octets, size);
        trace->size += size;
    }
}

static void note_image(struct trace *trace) {
    note(trace, lent.image, lent.image_octets);
}

/* A line's answer, with the octets that must be equal too: those of a reply, and of an address. */
static uint64_t note_line(struct trace *trace, uint64_t connection, struct text line) {
    struct umbrelnic_line_answer answer = call_line(connection, line);
    note(trace, &answer, sizeof answer);
    note(trace, heard.octets, heard.size);
    if (answer.kind == UMBRELNIC_FORWARD) {
        note(trace, handed.octets, handed.size);
    }
    note_image(trace);
    return answer.ticket;
}

static void note_verdict(struct trace *trace, uint64_t ticket, uint64_t verdict, struct text data) {
    struct umbrelnic_said said = call_verdict(ticket, verdict, data);
    note(trace, &said, sizeof said);
    note(trace, heard.octets, heard.size);
    note_image(trace);
}

static void note_who(struct trace *trace, uint64_t connection) {
    struct umbrelnic_identity who = call_who(connection);
    note(trace, &who, sizeof who);
    note(trace, named.octets, named.size);
    note_image(trace);
}

static void expect_alike(struct trace *one, struct trace *other) {
    EXPECT(one->size > 0);
    EXPECT_NUMBER(one->size, other->size);
    EXPECT(one->size != other->size || memcmp(one->octets, other->octets, one->size) == 0);
    free(one->octets);
    free(other->octets);
}

/* --- one sign-in with two passwords --- */

static struct trace sign_in_by(struct text initial, struct text answer, uint64_t verdict, struct text name) {
    struct trace trace = {NULL, 0, 0};
    make_server();
    uint64_t smtp = open_smtp();
    uint64_t pop3 = open_pop3();
    uint64_t ticket = note_line(&trace, smtp, joined(T("AUTH PLAIN "), initial));
    note_line(&trace, smtp, T("NOOP"));
    note_verdict(&trace, ticket, verdict, name);
    note_who(&trace, smtp);
    note_line(&trace, smtp, T("MAIL FROM:<> AUTH=a@b"));
    note_line(&trace, pop3, T("AUTH plain"));
    ticket = note_line(&trace, pop3, answer);
    note_verdict(&trace, ticket, verdict, name);
    note_who(&trace, pop3);
    /* one that stands on a line which is at the wrong moment, unavailable or not allowed */
    note_line(&trace, smtp, joined(T("AUTH PLAIN "), initial));
    note_line(&trace, pop3, joined(T("AUTH NoSuch "), initial));
    note_line(&trace, pop3, joined(T("AUTH CRAM-MD5 "), initial));
    return trace;
}

static void two_passwords(void) {
    static const char *const pairs[][2] = {
        {"Zm9v", "YmFy"}, {"Zg==", "AA=="}, {"Zm8=", "//8="}, {"AGFubmEAc2VjcmV0", "AGFubmEAcGFzc3dk"}, {"AAAA", "////"},
        {"QUIT", "AUTH"}, {"AAAAAAAAAAAAAAAA", "++++////0000zzzz"},
    };
    for (size_t i = 0; i < COUNT(pairs); i++) {
        for (uint64_t verdict = UMBRELNIC_SUCCESS; verdict <= UMBRELNIC_WEAK; verdict++) {
            struct text name = verdict == UMBRELNIC_SUCCESS ? T("anna") : NO_OCTETS;
            struct trace one = sign_in_by(of_string(pairs[i][0]), of_string(pairs[i][1]), verdict, name);
            struct trace other = sign_in_by(of_string(pairs[i][1]), of_string(pairs[i][0]), verdict, name);
            expect_alike(&one, &other);
        }
    }
}

/* The longest, which differ in every letter. */
static void two_long_answers(void) {
    struct text as = repeated(T("AAAA"), 60);
    struct text zs = repeated(T("zzzz"), 60);
    struct trace one = sign_in_by(as, repeated(T("AAAA"), 3071), UMBRELNIC_SUCCESS, T("anna"));
    struct trace other = sign_in_by(zs, repeated(T("zzzz"), 3071), UMBRELNIC_SUCCESS, T("anna"));
    expect_alike(&one, &other);
}

/* --- random lists --- */

/* The letters of answers come from a stream of their own, so that all else is drawn alike in both runs. */
static uint64_t letters;

static struct text some_answer(void) {
    static uint8_t answer[4 * 40];
    size_t size = 4 * draw(40);
    size_t pad = size > 0 ? draw(3) : 0;
    for (size_t i = 0; i < size; i++) {
        letters = letters * 6364136223846793005u + 1442695040888963407u;
        answer[i] = (uint8_t)"ABCDEFGHIJKLMNOPQRSTUVWXYZabcdefghijklmnopqrstuvwxyz0123456789+/"[letters >> 58];
    }
    if (pad > 0) {
        /* unused bits are zero */
        answer[size - 1 - pad] = pad == 1 ? (uint8_t)"AEIMQUYcgkosw048"[letters >> 60] : (uint8_t)"AQgw"[letters >> 62];
        memset(answer + size - pad, '=', pad);
    }
    return (struct text){answer, size};
}

static void some_step(struct trace *trace) {
    static const char *const others[] = {
        "NOOP", "*", "AUTH PLAIN", "AUTH CRAM-MD5", "EHLO a", "MAIL FROM:<> AUTH=a@b", "RSET", "AUTH PLAIN Zh==", "AUTH x",
    };
    static const char *const starts[] = {"AUTH PLAIN ", "AUTH PLAIN ", "AUTH pLaIn ", "AUTH CRAM-MD5 "};
    uint64_t connection = 1 + draw(7);
    const uint8_t *slot = slot_of(connection);
    if (slot != NULL && slot[PHASE] == WAITING && draw(4) != 0) {
        uint64_t verdict = draw(2) == 0 ? UMBRELNIC_CHALLENGE : draw(7);
        note_verdict(trace, get_number(slot + TICKET), verdict, verdict <= UMBRELNIC_SUCCESS ? T("name") : NO_OCTETS);
    } else if (slot != NULL && slot[PHASE] == AWAITING && draw(8) != 0) {
        note_line(trace, connection, some_answer());
    } else if (draw(3) == 0) {
        note_line(trace, connection, joined(of_string(starts[draw(COUNT(starts))]), some_answer()));
    } else if (draw(12) == 0) {
        note_who(trace, connection);
    } else if (draw(40) == 0) {
        uint64_t refusal = call_close(connection);
        note(trace, &refusal, sizeof refusal);
    } else {
        note_line(trace, connection, of_string(others[draw(COUNT(others))]));
    }
}

/* An initial response may not be empty: "AUTH PLAIN " alone is no valid one, but is alike in both runs. */
static struct trace random_list(uint64_t list, uint64_t start) {
    struct trace trace = {NULL, 0, 0};
    seed(list);
    letters = start;
    make_server();
    for (int i = 0; i < 3; i++) {
        open_smtp();
        open_pop3();
    }
    for (int step = 0; step < 200; step++) {
        some_step(&trace);
    }
    return trace;
}

static void random_lists(void) {
    for (uint64_t list = 1; list <= 20; list++) {
        struct trace one = random_list(list, 11);
        struct trace other = random_list(list, 500 + list);
        expect_alike(&one, &other);
    }
}

/* --- what of an answer is left in an image: nothing --- */

static void no_trace_of_an_answer(void) {
    make_server();
    uint64_t connection = open_smtp();
    uint8_t before[SLOT_OCTETS];
    EXPECT_REPLY(connection, T("AUTH PLAIN"), "334 ");
    memcpy(before, slot_of(connection), SLOT_OCTETS);
    EXPECT_QUERY(connection, T("c2VjcmV0"), 1, T("secret"));
    const uint8_t *after = slot_of(connection);
    for (size_t i = 0; i < SLOT_OCTETS; i++) {
        if (i != PHASE && i != TICKET) {
            EXPECT_NUMBER(after[i], before[i]);
        }
    }
}

int main(void) {
    static const struct test tests[] = {
        TEST(two_passwords),
        TEST(two_long_answers),
        TEST(random_lists),
        TEST(no_trace_of_an_answer),
    };
    return RUN_TESTS("secrecy", tests);
}
