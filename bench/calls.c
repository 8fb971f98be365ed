/* The calls of the library beside the model in host/: a whole sign-in (open, EHLO, AUTH with an initial response, success, MAIL,
   close), every call by itself, and the longest answer and challenge, on images with some connections open. A length is how many
   these are, the one that the calls are for included. Of the others half wait on a ticket, and half are signed in with names of 40
   octets. Then a whole sign-in with 64 connections whose numbers and tickets are those that a hash has most trouble with, and with
   63 that all wait. Compiled with -DON_MODEL the model stands in both places. */
#include "../host/face.h"
#include "../host/layout.h"
#include "harness.h"
#include <stdio.h>
#include <stdlib.h>
#include <string.h>
#include <ucontext.h>

/* --- the steps of a sign-in --- */

enum step { OPEN, GREET, AUTHENTICATE, SUCCEED, MAIL, CLOSE };
/* and the other calls, alone */
enum { WHO = CLOSE + 1, ENDED, ADD, MAKE, ANSWER, CHALLENGE };

/* An input is an image, the first and the last step, and a text: the AUTH line, the answer, the challenge, the mechanism's name. */
enum { FIRST = UMBRELNIC_IMAGE_OCTETS, LAST, TEXT };

/* What stands where in the output: the image, the lent buffers, and a sum of all numbers that the calls gave. */
enum {
    REPLY = UMBRELNIC_IMAGE_OCTETS,
    ANSWERS = REPLY + UMBRELNIC_REPLY_OCTETS,
    NAMES = ANSWERS + UMBRELNIC_ANSWER_OCTETS,
    SUM = NAMES + UMBRELNIC_NAME_OCTETS,
    OUTPUT = SUM + 8,
};

struct run {
    const struct face *face;
    uint8_t *out;
    const uint8_t *text;
    size_t text_octets;
    uint64_t connection;
    uint64_t ticket;
    uint64_t sum;
};

static void add(struct run *run, uint64_t number) {
    run->sum = run->sum * 31 + number;
}

static void send_line(struct run *run, const uint8_t *line, size_t octets) {
    struct umbrelnic_line_answer answer =
        run->face->line(run->out, UMBRELNIC_IMAGE_OCTETS, run->connection, line, octets, run->out + REPLY, UMBRELNIC_REPLY_OCTETS,
                        run->out + ANSWERS, UMBRELNIC_ANSWER_OCTETS);
    add(run, answer.refusal);
    add(run, answer.kind);
    add(run, answer.length);
    add(run, answer.identity);
    run->ticket = answer.ticket;
}
#define SEND(run, literal) send_line(run, (const uint8_t *)(literal), sizeof(literal) - 1)

static const char name[] = "a-name-of-just-forty-octets-for-an-office";
enum { NAME_OCTETS = 40 };

static void give_verdict(struct run *run, uint64_t verdict, const uint8_t *data, size_t octets) {
    struct umbrelnic_said said =
        run->face->verdict(run->out, UMBRELNIC_IMAGE_OCTETS, run->ticket, verdict, data, octets, run->out + REPLY,
                           UMBRELNIC_REPLY_OCTETS, run->out + ANSWERS, UMBRELNIC_ANSWER_OCTETS);
    add(run, said.refusal);
    add(run, said.length);
}

static void open_one(struct run *run) {
    struct umbrelnic_opened opened = run->face->open(run->out, UMBRELNIC_IMAGE_OCTETS, UMBRELNIC_SMTP, 1);
    add(run, opened.refusal);
    run->connection = opened.connection;
}

static void who(struct run *run) {
    struct umbrelnic_identity identity =
        run->face->who(run->out, UMBRELNIC_IMAGE_OCTETS, run->connection, run->out + NAMES, UMBRELNIC_NAME_OCTETS);
    add(run, identity.refusal);
    add(run, identity.length);
}

/* The calls that give a refusal and nothing else. */
static uint64_t take_simple(struct run *run, int step) {
    switch (step) {
    case CLOSE:
        return run->face->close(run->out, UMBRELNIC_IMAGE_OCTETS, run->connection);
    case ENDED:
        return run->face->mail_ended(run->out, UMBRELNIC_IMAGE_OCTETS, run->connection);
    case ADD:
        return run->face->add(run->out, UMBRELNIC_IMAGE_OCTETS, run->text, run->text_octets, 1, 0);
    default:
        return run->face->make(run->out, UMBRELNIC_IMAGE_OCTETS, 1, 1);
    }
}

static void take(struct run *run, int step) {
    switch (step) {
    case OPEN:
        open_one(run);
        break;
    case GREET:
        SEND(run, "EHLO office.brook.example");
        break;
    case AUTHENTICATE:
    case ANSWER:
        send_line(run, run->text, run->text_octets);
        break;
    case SUCCEED:
        give_verdict(run, UMBRELNIC_SUCCESS, (const uint8_t *)name, NAME_OCTETS);
        break;
    case CHALLENGE:
        give_verdict(run, UMBRELNIC_CHALLENGE, run->text, run->text_octets);
        break;
    case MAIL:
        SEND(run, "MAIL FROM:<orders@brook.example> SIZE=20480 AUTH=orders+2Bday@brook.example");
        break;
    case WHO:
        who(run);
        break;
    default:
        add(run, take_simple(run, step));
    }
}

/* --- the contenders, in the shape of a row --- */

/* Calls change the image, so each run is on a copy of it. */
static uint64_t run_by(const struct face *face, const uint8_t *in, size_t size, uint8_t *out) {
    struct run run = {face, out, in + TEXT, size - TEXT, get_number(in + NEXT_CONNECTION) - 1, get_number(in + NEXT_TICKET) - 1, 0};
    memcpy(out, in, UMBRELNIC_IMAGE_OCTETS);
    for (int step = in[FIRST]; step <= in[LAST]; step++) {
        take(&run, step);
    }
    put_number(out + SUM, run.sum);
    return OUTPUT;
}

static uint64_t run_by_proved(const uint8_t *in, size_t size, uint8_t *out, size_t room) {
    (void)room;
    return run_by(&tested, in, size, out);
}

static uint64_t run_by_plain(const uint8_t *in, size_t size, uint8_t *out, size_t room) {
    (void)room;
    return run_by(&model, in, size, out);
}

static const struct row rows[] = {
    {"proved", run_by_proved},
    {"plain C", run_by_plain},
};

/* --- the inputs --- */

static const char *const two[] = {"PLAIN", "CRAM-MD5"};
/* fifteen letters are alike in all of them */
static const char *const eight[] = {"SIGN-IN-METHOD-A", "SIGN-IN-METHOD-B", "SIGN-IN-METHOD-C", "SIGN-IN-METHOD-D",
                                    "SIGN-IN-METHOD-E", "SIGN-IN-METHOD-F", "SIGN-IN-METHOD-G", "SIGN-IN-METHOD-H"};
static const char by_two[] = "AUTH PLAIN AGJyb29rLXN0cmVldABjb3JyZWN0IGhvcnNl";
static const char by_eight[] = "AUTH SIGN-IN-METHOD-H AGJyb29rLXN0cmVldABjb3JyZWN0IGhvcnNl";

enum { LONGEST_ANSWER = 12284 };

/* The steps of an input, none where the last is before the first, and how far its connection is before them. */
static const struct choice {
    int first;
    int last;
    int before;
    bool eight;
} choices[] = {
    {OPEN, CLOSE, OPEN, false},
    {OPEN, CLOSE, OPEN, true},
    {OPEN, OPEN, OPEN, false},
    {GREET, GREET, GREET, false},
    {AUTHENTICATE, AUTHENTICATE, AUTHENTICATE, false},
    {AUTHENTICATE, AUTHENTICATE, AUTHENTICATE, true},
    {SUCCEED, SUCCEED, SUCCEED, false},
    {MAIL, MAIL, MAIL, false},
    {ENDED, ENDED, CLOSE, false},
    {WHO, WHO, MAIL, false},
    {CLOSE, CLOSE, CLOSE, false},
    {ADD, ADD, OPEN, false},
    {MAKE, MAKE, OPEN, false},
    {ANSWER, ANSWER, AUTHENTICATE, false},
    {CHALLENGE, CHALLENGE, SUCCEED, false},
    {GREET, OPEN, GREET, false},
};

static void add_mechanisms(uint8_t *image, const char *const *names, size_t count) {
    for (size_t i = 0; i < count; i++) {
        model.add(image, UMBRELNIC_IMAGE_OCTETS, (const uint8_t *)names[i], strlen(names[i]), i != 1 || count == COUNT(eight), 0);
    }
}

/* Takes a new connection through all steps before one. */
static void bring_to(struct run *run, int step) {
    for (int before = OPEN; before < step; before++) {
        take(run, before);
    }
}

static size_t put_text(const struct run *run, int step, uint8_t *text) {
    if (step == ANSWER || step == CHALLENGE) {
        size_t octets = step == ANSWER ? LONGEST_ANSWER : UMBRELNIC_CHALLENGE_OCTETS;
        memset(text, 'Q', octets);
        return octets;
    }
    if (step == ADD) {
        memcpy(text, "SCRAM-SHA-256", 13);
        return 13;
    }
    memcpy(text, run->text, run->text_octets);
    return run->text_octets;
}

static size_t put_input(const struct run *run, int first, int last, uint8_t *in) {
    memcpy(in, run->out, UMBRELNIC_IMAGE_OCTETS);
    in[FIRST] = (uint8_t)first;
    in[LAST] = (uint8_t)last;
    return TEXT + put_text(run, first, in + TEXT);
}

static size_t make_input(size_t connections, size_t which, uint8_t *in) {
    static uint8_t out[40000];
    const struct choice *choice = &choices[which];
    const char *line = choice->eight ? by_eight : by_two;
    struct run run = {&model, out, (const uint8_t *)line, strlen(line), 0, 0, 0};
    if ((choice->first == ADD || choice->first == MAKE) && connections > 1) {
        return NO_INPUT;
    }
    model.make(out, UMBRELNIC_IMAGE_OCTETS, 1, 1);
    add_mechanisms(out, choice->eight ? eight : two, choice->eight ? COUNT(eight) : COUNT(two));
    for (size_t i = 1; i < connections; i++) {
        bring_to(&run, i % 2 == 0 ? MAIL : SUCCEED);
    }
    bring_to(&run, choice->before);
    if (choice->first == ANSWER) {
        SEND(&run, "AUTH PLAIN");
    }
    return put_input(&run, choice->first, choice->last, in);
}

/* --- the worst patterns --- */

/* Numbers and tickets are told apart by a hash, so which connections stay and which tickets wait might decide what a call takes.
   The numbers that stay, and the tickets that wait: */
static bool any_number(uint64_t number) {
    (void)number;
    return true;
}

static bool every_64th(uint64_t number) {
    return number % 64 == 0;
}

static bool every_256th(uint64_t number) {
    return number % 256 == 0;
}

/* those that the hash of the image's test (host/model.c has the same) puts first into one bucket */
static bool of_one_bucket(uint64_t number) {
    return number % 509 == 0;
}

enum pattern { USUAL, EVERY_64TH, EVERY_256TH, ONE_BUCKET, PATTERNS };

static const struct {
    bool (*number)(uint64_t number);
    bool (*ticket)(uint64_t number);
} fits[PATTERNS] = {
    [USUAL] = {any_number, any_number},
    [EVERY_64TH] = {every_64th, any_number},
    [EVERY_256TH] = {every_256th, every_256th},
    [ONE_BUCKET] = {of_one_bucket, of_one_bucket},
};

static bool next_ticket_fits(const struct run *run, enum pattern pattern) {
    return fits[pattern].ticket(get_number(run->out + NEXT_TICKET));
}

static bool next_number_fits(const struct run *run, enum pattern pattern) {
    return fits[pattern].number(get_number(run->out + NEXT_CONNECTION));
}

/* Clients come and go, one at a time, until the next ticket and the next number fit: one that asks and is rejected, again and again,
   then some that only open and close. */
static void let_pass(struct run *run, enum pattern pattern) {
    if (!next_ticket_fits(run, pattern)) {
        bring_to(run, AUTHENTICATE);
        while (!next_ticket_fits(run, pattern)) {
            SEND(run, "AUTH CRAM-MD5");
            give_verdict(run, UMBRELNIC_REJECTED, NULL, 0);
        }
        take(run, CLOSE);
    }
    while (!next_number_fits(run, pattern)) {
        take(run, OPEN);
        take(run, CLOSE);
    }
}

enum { OTHERS = UMBRELNIC_MOST_CONNECTIONS - 1 };

/* 63 connections that all wait on a ticket; the next number and the next ticket fit as theirs do. The longest takes some 130,000
   calls, so each is made once. */
static const uint8_t *all_waiting(struct run *run, enum pattern pattern) {
    static uint8_t made[PATTERNS][UMBRELNIC_IMAGE_OCTETS];
    static bool is_made[PATTERNS];
    if (!is_made[pattern]) {
        model.make(run->out, UMBRELNIC_IMAGE_OCTETS, 1, 1);
        add_mechanisms(run->out, two, COUNT(two));
        for (size_t i = 0; i < OTHERS; i++) {
            let_pass(run, pattern);
            bring_to(run, SUCCEED);
        }
        let_pass(run, pattern);
        memcpy(made[pattern], run->out, UMBRELNIC_IMAGE_OCTETS);
        is_made[pattern] = true;
    }
    return made[pattern];
}

static const uint8_t *slot_at(const uint8_t *image, size_t index) {
    return image + SLOTS + index * SLOT_OCTETS;
}

/* Every second of those that wait gets its success, so that they are as in the other inputs. */
static void sign_half_in(struct run *run) {
    for (size_t i = 1; i < OTHERS; i += 2) {
        run->ticket = get_number(slot_at(run->out, i) + TICKET);
        take(run, SUCCEED);
    }
}

static const struct mix {
    enum pattern pattern;
    bool all_wait;
} mixes[] = {
    {EVERY_64TH, false},
    {EVERY_256TH, false},
    {ONE_BUCKET, false},
    {USUAL, true},
    {ONE_BUCKET, true},
};

/* A whole sign-in, whose connection is the 64th. */
static size_t make_pattern(size_t connections, size_t which, uint8_t *in) {
    static uint8_t out[40000];
    struct run run = {&model, out, (const uint8_t *)by_two, strlen(by_two), 0, 0, 0};
    if (connections != UMBRELNIC_MOST_CONNECTIONS) {
        return NO_INPUT;
    }
    memcpy(out, all_waiting(&run, mixes[which].pattern), UMBRELNIC_IMAGE_OCTETS);
    if (!mixes[which].all_wait) {
        sign_half_in(&run);
    }
    return put_input(&run, OPEN, CLOSE, in);
}

static const struct table tables[] = {
    {"sign-in", "2 mechanisms", rows, COUNT(rows), make_input, 0},
    {"sign-in", "8 mechanisms", rows, COUNT(rows), make_input, 1},
    {"one call", "open", rows, COUNT(rows), make_input, 2},
    {"one call", "EHLO", rows, COUNT(rows), make_input, 3},
    {"one call", "AUTH, 2 mech.", rows, COUNT(rows), make_input, 4},
    {"one call", "AUTH, 8 mech.", rows, COUNT(rows), make_input, 5},
    {"one call", "success", rows, COUNT(rows), make_input, 6},
    {"one call", "MAIL", rows, COUNT(rows), make_input, 7},
    {"one call", "mail ended", rows, COUNT(rows), make_input, 8},
    {"one call", "who", rows, COUNT(rows), make_input, 9},
    {"one call", "close", rows, COUNT(rows), make_input, 10},
    {"one call", "add", rows, COUNT(rows), make_input, 11},
    {"one call", "none: the copy", rows, COUNT(rows), make_input, 15},
    {"longest", "answer", rows, COUNT(rows), make_input, 13},
    {"longest", "challenge", rows, COUNT(rows), make_input, 14},
    {"patterns", "every 64th", rows, COUNT(rows), make_pattern, 0},
    {"patterns", "every 256th", rows, COUNT(rows), make_pattern, 1},
    {"patterns", "one bucket", rows, COUNT(rows), make_pattern, 2},
    {"all waiting", "usual", rows, COUNT(rows), make_pattern, 3},
    {"all waiting", "one bucket", rows, COUNT(rows), make_pattern, 4},
};

/* A server is made once, so this call is compared but not measured. */
static const struct table make_alone = {"one call", "make", rows, COUNT(rows), make_input, 12};

/* --- how much stack a call uses --- */

enum { STACK = 256 * 1024, STACK_LIMIT = 16 * 1024 };

static uint8_t stack[STACK];
static ucontext_t here;
static ucontext_t there;
static const struct row *on_stack; /* NULL: nothing is called */
static uint8_t input[40000];
static uint8_t output[40000];
static size_t input_size;

static void run_on_stack(void) {
    if (on_stack != NULL) {
        on_stack->call(input, input_size, output, sizeof output);
    }
}

/* Runs on a stack that is painted, and counts the octets that were written. */
static size_t stack_of(const struct row *row) {
    memset(stack, 0xa5, STACK);
    on_stack = row;
    getcontext(&there);
    there.uc_stack.ss_sp = stack;
    there.uc_stack.ss_size = STACK;
    there.uc_link = &here;
    makecontext(&there, run_on_stack, 0);
    swapcontext(&here, &there);
    size_t untouched = 0;
    while (untouched < STACK && stack[untouched] == 0xa5) {
        untouched++;
    }
    return STACK - untouched;
}

/* "proved" and "plain C", less what the way to them takes. Where the proved one is above the limit, that is a difference. */
static void measure_stack(const struct table *table) {
    size_t none = stack_of(NULL);
    input_size = table->make(64, table->choice, input);
    if (input_size == NO_INPUT) {
        input_size = table->make(1, table->choice, input);
    }
    size_t proved = stack_of(&table->rows[0]) - none;
    size_t plain = stack_of(&table->rows[1]) - none;
    printf("calls stack: %s, %s: proved %zu octets, plain C %zu\n", table->function, table->kind, proved, plain);
    if (proved >= STACK_LIMIT && differs()) {
        printf("TOO MUCH stack: %zu octets, and the limit is %d\n", proved, STACK_LIMIT);
    }
}

/* --- the comparison: host/run.sh has the long one --- */

static void compare_input(const struct table *table, size_t connections) {
    static uint8_t expected[40000];
    input_size = table->make(connections, table->choice, input);
    if (input_size == NO_INPUT) {
        return;
    }
    memset(output, 0x5a, sizeof output);
    memset(expected, 0x5a, sizeof expected);
    uint64_t got = table->rows[0].call(input, input_size, output, sizeof output);
    uint64_t want = table->rows[1].call(input, input_size, expected, sizeof expected);
    comparisons++;
    if ((got != want || memcmp(output, expected, sizeof output) != 0) && differs()) {
        printf("DIFFERS %s, %s, %zu connections\n", table->function, table->kind, connections);
    }
}

static void compare_table(const struct table *table) {
    for (size_t connections = 1; connections <= UMBRELNIC_MOST_CONNECTIONS; connections++) {
        compare_input(table, connections);
    }
    measure_stack(table);
}

/* Whether an input has its pattern: 63 open connections, the usual half or all of them waiting, whose numbers and tickets fit. */
static bool has_pattern(const uint8_t *image, const struct mix *mix) {
    size_t open = 0;
    size_t waiting = 0;
    bool all_fit = true;
    for (size_t i = 0; i < UMBRELNIC_MOST_CONNECTIONS; i++) {
        const uint8_t *slot = slot_at(image, i);
        bool is_open = slot[IS_OPEN] == 1;
        bool waits = slot[PHASE] == WAITING;
        open += is_open;
        waiting += waits;
        all_fit = all_fit && (!is_open || fits[mix->pattern].number(get_number(slot + NUMBER))) &&
                  (!waits || fits[mix->pattern].ticket(get_number(slot + TICKET)));
    }
    return open == OTHERS && waiting == (mix->all_wait ? OTHERS : (OTHERS + 1) / 2) && all_fit;
}

static void check_patterns(void) {
    for (size_t which = 0; which < COUNT(mixes); which++) {
        make_pattern(UMBRELNIC_MOST_CONNECTIONS, which, input);
        if (!has_pattern(input, &mixes[which]) && differs()) {
            printf("NO PATTERN in the input %zu of the patterns\n", which);
        }
    }
}

static void compare(void) {
    for (size_t t = 0; t < COUNT(tables); t++) {
        compare_table(&tables[t]);
    }
    compare_table(&make_alone);
    check_patterns();
}

static const size_t lengths[] = {1, 8, 64};

static const struct program program = {"calls", tables, COUNT(tables), lengths, COUNT(lengths), compare};

int main(int argc, char **argv) {
    return harness_main(&program, argc, argv);
}
