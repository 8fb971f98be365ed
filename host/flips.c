/* Every octet of a full server's image altered, to each of its eight neighbours by one bit and to some other values: what is tested and
   the model must take the same images, and do the same with those that are taken.
     flips [STRIDE]
   With a stride only every so many octets are altered behind the first slots. */
#include "both.h"
#include "generate.h"
#include <stdio.h>
#include <stdlib.h>
#include <string.h>

static uint8_t written[UMBRELNIC_IMAGE_OCTETS];
static size_t images;
static size_t taken;

/* --- a full server: 8 mechanisms, 64 connections on both profiles in every phase --- */

static void expect_answered(struct call call) {
    if (both(&call).refusal != 0) {
        printf("FAIL flips: a call that makes the server was refused\n");
        exit(1);
    }
}

static uint64_t ticket_to_come(void) {
    return get_number(both_image + NEXT_TICKET);
}

/* Signs in with a name of 1 to 64 octets, or goes on for up to 16 challenges; then awaits an answer, or waits on a ticket. */
static void bring_on(uint64_t connection, size_t index) {
    size_t phase = index / 2 % 4;
    struct text start = index % 3 == 0 ? T("AUTH PLAIN Zm9v") : T("AUTH CRAM-MD5");
    expect_answered(usual(LINE, connection, 0, T("EHLO a")));
    if (phase == IDLE) {
        expect_answered(usual(LINE, connection, 0, index % 3 == 0 ? T("MAIL FROM:<>") : T("HELO a")));
        return;
    }
    expect_answered(usual(LINE, connection, 0, start));
    for (size_t count = index % 17; count > 0; count--) {
        expect_answered(usual(VERDICT, ticket_to_come() - 1, UMBRELNIC_CHALLENGE, T("foo")));
        if (count > 1 || phase != AWAITING) {
            expect_answered(usual(LINE, connection, 0, T("YmFy")));
        }
    }
    if (phase == SIGNED_IN) {
        expect_answered(usual(VERDICT, ticket_to_come() - 1, UMBRELNIC_SUCCESS, repeated(T("n"), index % 8 == 2 ? 64 : index + 1)));
    }
}

static void make_full_server(void) {
    expect_answered(usual(MAKE, 100, 70000, NO_OCTETS));
    for (size_t i = 0; i < UMBRELNIC_MOST_MECHANISMS; i++) {
        expect_answered(usual(ADD, i != 1, i == 0, of_string(mechanism_names[i])));
    }
    for (size_t i = 0; i < UMBRELNIC_MOST_CONNECTIONS; i++) {
        expect_answered(usual(OPEN, i % 2, 1, NO_OCTETS));
        bring_on(100 + i, i);
    }
    memcpy(written, both_image, sizeof written);
}

/* --- altered images --- */

static struct text good_line(const uint8_t *slot) {
    return slot[PHASE] == AWAITING ? T("Zm9v") : T("AUTH PLAIN Zm9v");
}

static struct call call_for(enum what what, const uint8_t *slot) {
    uint64_t connection = get_number(slot + NUMBER);
    switch (what) {
    case ADD:
        return usual(ADD, 1, 0, T("LATE"));
    case OPEN:
        return usual(OPEN, 0, 1, NO_OCTETS);
    case LINE:
        return usual(LINE, connection, 0, draw(2) == 0 ? some_line(slot) : good_line(slot));
    case VERDICT: {
        uint64_t verdict = draw(6);
        return usual(VERDICT, get_number(slot + TICKET), verdict, some_data(verdict));
    }
    default:
        return usual(what, connection, 0, NO_OCTETS);
    }
}

/* The calls are made for the connection in the slot that was altered, as far as there is one. */
static void try_image(size_t offset, uint8_t value) {
    uint8_t altered[UMBRELNIC_IMAGE_OCTETS];
    memcpy(altered, written, sizeof altered);
    altered[offset] = value;
    size_t index = offset < SLOTS ? draw(UMBRELNIC_MOST_CONNECTIONS) : (offset - SLOTS) / SLOT_OCTETS;
    const uint8_t *slot = altered + SLOTS + index * SLOT_OCTETS;
    struct call probe = usual(CLOSE, UINT64_MAX, 0, NO_OCTETS);
    memcpy(both_image, altered, sizeof altered);
    bool is_taken = both(&probe).refusal != UMBRELNIC_NOT_TAKEN;
    images++;
    taken += is_taken;
    for (enum what what = ADD; what < CALLS; what++) {
        /* of one that is not taken, some call beside the first */
        if (is_taken || images % (CALLS - ADD) + ADD == what) {
            memcpy(both_image, altered, sizeof altered);
            struct call call = call_for(what, slot);
            both(&call);
        }
    }
}

static void alter(size_t offset) {
    static const uint8_t values[] = {0, 1, 2, 3, 4, 16, 17, 'A', 0x7f, 0xff};
    for (size_t bit = 0; bit < 8; bit++) {
        try_image(offset, (uint8_t)(written[offset] ^ 1 << bit));
    }
    for (size_t i = 0; i < COUNT(values); i++) {
        try_image(offset, values[i]);
    }
}

int main(int argc, char **argv) {
    size_t stride = argc > 1 ? (size_t)strtoull(argv[1], NULL, 10) : 1;
    seed(1);
    make_full_server();
    for (size_t offset = 0; offset < UMBRELNIC_IMAGE_OCTETS; offset++) {
        if (offset < SLOTS + 8 * SLOT_OCTETS || offset % stride == 0) {
            alter(offset);
        }
    }
    if (both_differences > 0 || taken == 0 || taken == images) {
        printf("FAIL flips: %zu differences of %s and model, %zu of %zu images taken\n", both_differences, tested.name, taken, images);
        return 1;
    }
    printf("ok flips %zu images of a full server on %s and model, %zu of them taken\n", images, tested.name, taken);
    return 0;
}
