/* Long random lists of calls on what is tested and on the model, side by side.
     compare CALLS [SEED]
   A list begins with make; later calls suit the image as it stands, more often than not, so that deep states are reached. Now and
   then a buffer is too short, an image has another length or some octets altered. What a run has to meet is counted at its end. */
#include "both.h"
#include "generate.h"
#include <inttypes.h>
#include <stdio.h>
#include <stdlib.h>
#include <string.h>

/* --- what was met --- */

static size_t met_refusal[21];
static size_t met_kind[3];
static size_t met_identity[4];
static size_t met_start;
static size_t met_reply[2][REPLIES];
static size_t met_name;
static size_t met_challenge[17]; /* by how many the exchange had sent; the last gets the temporary reply */
static size_t met_phase[2][4];
static size_t met_full;

static void count_reply(uint8_t profile) {
    for (size_t reply = 0; reply < REPLIES; reply++) {
        size_t size = strlen(hears[profile][reply]);
        if (both_said.size == size + 2 && memcmp(both_said.octets, hears[profile][reply], size) == 0) {
            met_reply[profile][reply]++;
        }
    }
}

static void count_image(void) {
    size_t open = 0;
    for (size_t i = 0; i < UMBRELNIC_MOST_CONNECTIONS; i++) {
        const uint8_t *slot = both_image + SLOTS + i * SLOT_OCTETS;
        if (slot[IS_OPEN] == 1) {
            met_phase[slot[PROFILE] & 1][slot[PHASE] & 3]++;
            open++;
        }
    }
    met_full += open == UMBRELNIC_MOST_CONNECTIONS;
}

static void count_result(const struct call *call, const struct result *result, const uint8_t *slot) {
    met_refusal[result->refusal <= 20 ? result->refusal : 0]++;
    if (result->refusal != 0) {
        return;
    }
    if (call->what == LINE) {
        met_kind[result->numbers[KIND] % 3]++;
        met_start += result->numbers[STARTS];
        if (result->numbers[KIND] == UMBRELNIC_FORWARD) {
            met_identity[result->numbers[IDENTITY] % 4]++;
        }
    }
    if (slot != NULL && (call->what == LINE || call->what == VERDICT)) {
        count_reply(slot[PROFILE]);
    }
    if (slot != NULL && call->what == VERDICT && call->other == UMBRELNIC_CHALLENGE) {
        met_challenge[slot[SENT] <= 16 ? slot[SENT] : 0]++;
    }
    met_name += call->what == WHO && result->numbers[0] == 1;
}

/* --- drawing calls --- */

/* How a list is drawn; by percent where nothing else is said. */
struct bias {
    size_t open;
    size_t close;
    size_t challenge;
    size_t first_openings; /* so many at the list's start */
    uint64_t first_connection;
    uint64_t first_ticket;
};
static struct bias bias;

static uint64_t some_first_number(void) {
    switch (draw(6)) {
    case 0:
        return 0;
    case 1:
        return UINT64_MAX - draw(100);
    case 2:
        return draw_number();
    case 3:
        return UINT32_MAX - draw(50);
    default:
        return 1;
    }
}

static void draw_bias(void) {
    static const size_t challenges[] = {25, 60, 97};
    bool full = draw(4) == 0;
    bool few = !full && draw(2) == 0;
    bias.open = full ? 8 : few ? 1 : 4;
    bias.close = full ? 2 : few ? 1 : 4;
    bias.challenge = challenges[draw(3)];
    bias.first_openings = full ? 66 : few ? 2 : 8;
    bias.first_connection = some_first_number();
    bias.first_ticket = some_first_number();
}

static const uint8_t *some_slot(void) {
    const uint8_t *open[UMBRELNIC_MOST_CONNECTIONS];
    size_t count = 0;
    for (size_t i = 0; i < UMBRELNIC_MOST_CONNECTIONS; i++) {
        const uint8_t *slot = both_image + SLOTS + i * SLOT_OCTETS;
        if (slot[IS_OPEN] == 1) {
            open[count++] = slot;
        }
    }
    return count > 0 ? open[draw(count)] : NULL;
}

/* A number near those that are in use, or any. */
static uint64_t near(size_t offset) {
    return draw(4) == 0 ? draw_number() : get_number(both_image + offset) - draw(70) + 2;
}

static uint64_t some_connection(const uint8_t *slot) {
    return slot != NULL && draw(24) != 0 ? get_number(slot + NUMBER) : near(NEXT_CONNECTION);
}

static uint64_t yes_or_no(void) {
    static const uint64_t others[] = {2, 255, 256, (uint64_t)1 << 32, UINT64_MAX};
    return draw(40) == 0 ? others[draw(COUNT(others))] : draw(2);
}

static struct call draw_verdict(const uint8_t *slot) {
    uint64_t verdict = draw(100) < bias.challenge ? UMBRELNIC_CHALLENGE : 1 + draw(5);
    uint64_t ticket = slot != NULL && draw(24) != 0 ? get_number(slot + TICKET) : near(NEXT_TICKET);
    if (draw(60) == 0) {
        verdict = draw(2) == 0 ? 6 + draw(300) : draw_number();
    }
    return usual(VERDICT, ticket, verdict, some_data(verdict));
}

static struct call draw_add(void) {
    struct text name = of_string(mechanism_names[draw(MECHANISM_NAMES)]);
    if (draw(16) == 0) {
        name = some_data(UMBRELNIC_SUCCESS);
    }
    return usual(ADD, yes_or_no(), yes_or_no(), name);
}

static struct call draw_call(void) {
    const uint8_t *slot = some_slot();
    size_t lot = draw(100);
    if (lot < bias.open) {
        return usual(OPEN, yes_or_no(), yes_or_no(), NO_OCTETS);
    }
    lot -= bias.open;
    if (lot < bias.close) {
        return usual(CLOSE, some_connection(slot), 0, NO_OCTETS);
    }
    lot -= bias.close;
    if (lot < 2) {
        return draw(8) == 0 ? draw_add() : usual(MAIL_ENDED, some_connection(slot), 0, NO_OCTETS);
    }
    if (lot < 4) {
        return usual(WHO, some_connection(slot), 0, NO_OCTETS);
    }
    bool waiting = slot != NULL && slot[PHASE] == WAITING;
    if (waiting != (draw(20) == 0)) {
        return draw_verdict(slot);
    }
    return usual(LINE, some_connection(slot), 0, some_line(slot));
}

/* Other sizes than the usual, on both sides of what is needed. */
static void resize(struct call *call) {
    static const size_t images[] = {0, 1, 5761, 5763, 11524};
    static const size_t replies[] = {0, 12287, 12288, 12289, 12800};
    static const size_t answers[] = {0, 9212, 9213, 9214, 9800};
    static const size_t rooms[] = {0, 63, 64, 65, 100};
    if (draw(call->what == MAKE ? 4 : 100) == 0) {
        call->image_octets = images[draw(COUNT(images))];
    }
    if (draw(40) == 0) {
        call->reply_octets = replies[draw(COUNT(replies))];
    }
    if (draw(40) == 0) {
        call->answer_octets = answers[draw(COUNT(answers))];
    }
    if (draw(8) == 0) {
        call->name_octets = rooms[draw(COUNT(rooms))];
    }
}

/* --- lists of calls --- */

static void make_call(struct call *call) {
    resize(call);
    const uint8_t *slot = NULL;
    uint8_t before[SLOT_OCTETS];
    for (size_t i = 0; i < UMBRELNIC_MOST_CONNECTIONS; i++) {
        const uint8_t *one = both_image + SLOTS + i * SLOT_OCTETS;
        bool it = call->what == VERDICT ? one[PHASE] == WAITING && get_number(one + TICKET) == call->one
                                        : one[IS_OPEN] == 1 && get_number(one + NUMBER) == call->one;
        if (it && slot == NULL) {
            memcpy(before, one, SLOT_OCTETS);
            slot = before;
        }
    }
    struct result result = both(call);
    count_result(call, &result, slot);
}

static void alter_octet(uint8_t *octet) {
    *octet = draw(2) == 0 ? (uint8_t)(*octet ^ (1 << draw(8))) : (uint8_t)draw(4);
}

/* An octet of the header or the mechanisms, of any slot or of an open one; or a name, number or ticket that is there twice. */
static void alter_image(void) {
    const uint8_t *one = some_slot();
    const uint8_t *other = some_slot();
    size_t field = draw(2) == 0 ? NUMBER : TICKET;
    uint8_t *slot = one != NULL ? both_image + (one - both_image) : both_image + SLOTS;
    switch (draw(6)) {
    case 0:
        alter_octet(both_image + draw(SLOTS));
        break;
    case 1:
        alter_octet(both_image + draw(UMBRELNIC_IMAGE_OCTETS));
        break;
    case 2:
        memcpy(both_image + MECHANISMS + draw(3) * MECHANISM_OCTETS, both_image + MECHANISMS + 3 * MECHANISM_OCTETS, CLIENT_FIRST);
        break;
    case 3:
        put_number(slot + field, get_number((other != NULL ? other : slot) + field));
        break;
    default:
        alter_octet(slot + draw(draw(3) == 0 ? SLOT_OCTETS : NAME + 2));
    }
}

/* Some calls on an image of which somebody has altered octets. It is put back, unless it is taken and is kept. */
static void damaged_calls(void) {
    static uint8_t kept[UMBRELNIC_IMAGE_OCTETS];
    struct call probe = usual(CLOSE, UINT64_MAX, 0, NO_OCTETS);
    memcpy(kept, both_image, sizeof kept);
    for (size_t count = 1 + draw(2); count > 0; count--) {
        alter_image();
    }
    for (size_t count = 4; count > 0; count--) {
        struct call call = draw_call();
        make_call(&call);
    }
    if (both(&probe).refusal == UMBRELNIC_NOT_TAKEN || draw(2) == 0) {
        memcpy(both_image, kept, sizeof kept);
    }
}

static void start_list(void) {
    draw_bias();
    for (size_t i = 0; i < UMBRELNIC_IMAGE_OCTETS; i++) {
        both_image[i] = (uint8_t)draw(256);
    }
    struct call call = usual(MAKE, bias.first_connection, bias.first_ticket, NO_OCTETS);
    both(&call);
    /* PLAIN, CRAM-MD5 and A are in most lines */
    for (size_t i = 0; i < 3; i++) {
        call = usual(ADD, i != 1, i == 0 && draw(2) == 0, of_string(mechanism_names[i]));
        both(&call);
    }
    for (size_t count = draw(3) == 0 ? 0 : draw(30); count > 0; count--) {
        call = draw_add();
        make_call(&call);
    }
    for (size_t count = bias.first_openings; count > 0; count--) {
        call = usual(OPEN, draw(2), draw(4) != 0, NO_OCTETS);
        make_call(&call);
    }
}

static void run_list(void) {
    start_list();
    for (size_t count = 100 + draw(900); count > 0 && both_differences == 0; count--) {
        struct call call = draw_call();
        make_call(&call);
        if (draw(60) == 0) {
            damaged_calls();
        }
        if (draw(16) == 0) {
            count_image();
        }
    }
    if (draw(8) == 0) {
        struct call call = usual(MAKE, draw_number(), draw_number(), NO_OCTETS);
        make_call(&call);
    }
}

/* --- the verdict on the run --- */

static size_t missing;

static void want(const char *what, size_t number, size_t count) {
    if (count == 0) {
        printf("never met: %s %zu\n", what, number);
        missing++;
    }
}

static void want_all(const char *what, const size_t *counts, size_t size) {
    for (size_t i = 0; i < size; i++) {
        want(what, i, counts[i]);
    }
}

static void want_everything(void) {
    static const size_t refusals[] = {0, 1, 2, 3, 4, 5, 6, 7, 8, 9, 10, 11, 20};
    for (size_t i = 0; i < COUNT(refusals); i++) {
        want("refusal", refusals[i], met_refusal[refusals[i]]);
    }
    want_all("kind", met_kind, COUNT(met_kind));
    want_all("identity", met_identity, COUNT(met_identity));
    want_all("SMTP reply", met_reply[UMBRELNIC_SMTP], REPLIES);
    want_all("POP3 reply", met_reply[UMBRELNIC_POP3], REPLIES);
    want_all("SMTP phase", met_phase[UMBRELNIC_SMTP], 4);
    want_all("POP3 phase", met_phase[UMBRELNIC_POP3], 4);
    want_all("a challenge after", met_challenge, COUNT(met_challenge));
    want("a name", 1, met_name);
    want("a start", 1, met_start);
    want("a full server", 64, met_full);
}

int main(int argc, char **argv) {
    size_t calls = argc > 1 ? (size_t)strtoull(argv[1], NULL, 10) : 100000;
    uint64_t start = argc > 2 ? strtoull(argv[2], NULL, 10) : 1;
    seed(start);
    while (both_calls < calls && both_differences == 0) {
        run_list();
    }
    if (both_differences > 0) {
        printf("FAIL compare: %s and model differ in call %zu, seed %" PRIu64 "\n", tested.name, both_calls, start);
        return 1;
    }
    printf("ok compare %zu calls on %s and model, seed %" PRIu64 "\n", both_calls, tested.name, start);
    want_everything();
    if (missing > 0) {
        printf("FAIL compare reach: %zu things were never met, seed %" PRIu64 "\n", missing, start);
        return 1;
    }
    printf("ok compare reach: every refusal, kind, identity, reply, phase and count of challenges, seed %" PRIu64 "\n", start);
    return 0;
}
