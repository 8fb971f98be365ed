#define _DEFAULT_SOURCE
#include "both.h"
#include <inttypes.h>
#include <stdio.h>
#include <stdlib.h>
#include <string.h>
#include <sys/mman.h>

uint8_t both_image[UMBRELNIC_IMAGE_OCTETS];
struct text both_said;
size_t both_calls;
size_t both_differences;

/* --- buffers --- */

enum { PAGE = 4096, ROOM = 32 * PAGE };

/* Some pages with one before and one behind that cannot be touched. */
static uint8_t *guarded(void) {
    uint8_t *pages = mmap(NULL, ROOM + 2 * PAGE, PROT_NONE, MAP_PRIVATE | MAP_ANONYMOUS, -1, 0);
    if (pages == MAP_FAILED || mprotect(pages + PAGE, ROOM, PROT_READ | PROT_WRITE) != 0) {
        abort();
    }
    return pages + PAGE;
}

struct buffer {
    uint8_t *pages;
    uint8_t *octets;
    size_t size;
    const uint8_t *before;
};

/* One of the two sides. */
struct side {
    const struct face *face;
    struct buffer image;
    struct buffer reply;
    struct buffer answer;
    struct buffer name;
};

static struct side sides[2];
static struct buffer text;
static uint8_t noise[2 * ROOM];

static void prepare(void) {
    struct side *all[] = {&sides[0], &sides[1]};
    for (size_t i = 0; i < COUNT(all); i++) {
        all[i]->image.pages = guarded();
        all[i]->reply.pages = guarded();
        all[i]->answer.pages = guarded();
        all[i]->name.pages = guarded();
    }
    sides[0].face = &tested;
    sides[1].face = &model;
    text.pages = guarded();
    for (size_t i = 0; i < sizeof noise; i++) {
        noise[i] = (uint8_t)(draw_number() >> 32);
    }
}

/* At the end of the pages, or at their start. */
static void lend(struct buffer *buffer, size_t size, const uint8_t *octets, bool at_end) {
    buffer->octets = at_end ? buffer->pages + ROOM - size : buffer->pages;
    buffer->size = size;
    buffer->before = octets;
    memcpy(buffer->octets, octets, size);
}

static void lend_to(struct side *side, const struct call *call, const uint8_t *image, size_t shift, bool at_end) {
    lend(&side->image, call->image_octets, image, at_end);
    lend(&side->reply, call->reply_octets, noise + shift, at_end);
    lend(&side->answer, call->answer_octets, noise + shift + 1, at_end);
    lend(&side->name, call->name_octets, noise + shift + 2, at_end);
}

/* --- a call on one side --- */

static struct result of_line(struct umbrelnic_line_answer line) {
    return (struct result){line.refusal, {line.kind, line.ticket, line.starts, line.length, line.identity}};
}

static struct result call_side(struct side *side, const struct call *call) {
    const struct face *face = side->face;
    uint8_t *image = side->image.octets;
    size_t octets = side->image.size;
    switch (call->what) {
    case MAKE:
        return (struct result){face->make(image, octets, call->one, call->other), {0}};
    case ADD:
        return (struct result){face->add(image, octets, text.octets, text.size, call->one, call->other), {0}};
    case OPEN: {
        struct umbrelnic_opened opened = face->open(image, octets, call->one, call->other);
        return (struct result){opened.refusal, {opened.connection}};
    }
    case LINE:
        return of_line(face->line(image, octets, call->one, text.octets, text.size, side->reply.octets, side->reply.size,
                                  side->answer.octets, side->answer.size));
    case VERDICT: {
        struct umbrelnic_said said = face->verdict(image, octets, call->one, call->other, text.octets, text.size,
                                                   side->reply.octets, side->reply.size, side->answer.octets, side->answer.size);
        return (struct result){said.refusal, {said.length}};
    }
    case MAIL_ENDED:
        return (struct result){face->mail_ended(image, octets, call->one), {0}};
    case WHO: {
        struct umbrelnic_identity who = face->who(image, octets, call->one, side->name.octets, side->name.size);
        return (struct result){who.refusal, {who.signed_in, who.length}};
    }
    default:
        return (struct result){face->close(image, octets, call->one), {0}};
    }
}

/* --- the comparison --- */

static const char *const names[CALLS] = {"make", "add", "open", "line", "verdict", "mail ended", "who", "close"};

static void print_result(const char *name, const struct result *result) {
    printf("  %s: refusal %" PRIu64 ", numbers", name, result->refusal);
    for (size_t i = 0; i < COUNT(result->numbers); i++) {
        printf(" %" PRIu64, result->numbers[i]);
    }
    printf("\n");
}

static void differ(const struct call *call, const char *what, const struct result results[2]) {
    both_differences++;
    if (both_differences > 5) {
        return;
    }
    printf("DIFFERS in %s, call %zu: %s(%" PRIu64 ", %" PRIu64 ")\n", what, both_calls, names[call->what], call->one, call->other);
    printf("  image %zu, reply %zu, answer %zu, name %zu, text of %zu: ", call->image_octets, call->reply_octets, call->answer_octets,
           call->name_octets, call->text.size);
    for (size_t i = 0; i < call->text.size && i < 120; i++) {
        printf("%02x", call->text.octets[i]);
    }
    printf("\n");
    print_result(tested.name, &results[0]);
    print_result(model.name, &results[1]);
}

static bool same_octets(const struct buffer *one, const struct buffer *other) {
    return memcmp(one->octets, other->octets, one->size) == 0;
}

/* As lent from an index on. */
static bool as_lent(const struct buffer *buffer, uint64_t from) {
    return from <= buffer->size && memcmp(buffer->octets + from, buffer->before + from, buffer->size - from) == 0;
}

/* How many octets of each buffer a call may have written. */
struct written {
    uint64_t reply;
    uint64_t answer;
    uint64_t name;
};

static struct written written_by(const struct call *call, const struct result *result) {
    struct written written = {0, 0, 0};
    if (result->refusal != 0) {
        return written;
    }
    if (call->what == VERDICT) {
        written.reply = result->numbers[0];
    } else if (call->what == WHO) {
        written.name = result->numbers[1];
    } else if (call->what == LINE && result->numbers[KIND] == UMBRELNIC_REPLY) {
        written.reply = result->numbers[LENGTH];
    } else if (call->what == LINE) {
        written.answer = result->numbers[LENGTH];
    }
    return written;
}

static void compare(const struct call *call, const struct result results[2]) {
    const struct side *side = &sides[0];
    struct written written = written_by(call, &results[0]);
    if (memcmp(&results[0], &results[1], sizeof results[0]) != 0) {
        differ(call, "its result", results);
    } else if (!same_octets(&side->image, &sides[1].image)) {
        differ(call, "the image", results);
    } else if (!same_octets(&side->reply, &sides[1].reply)) {
        differ(call, "the reply buffer", results);
    } else if (!same_octets(&side->answer, &sides[1].answer)) {
        differ(call, "the answer buffer", results);
    } else if (!same_octets(&side->name, &sides[1].name)) {
        differ(call, "the name buffer", results);
    } else if (!as_lent(&side->reply, written.reply) || !as_lent(&side->answer, written.answer) ||
               !as_lent(&side->name, written.name)) {
        differ(call, "octets that it has nothing for", results);
    } else if (results[0].refusal != 0 && !as_lent(&side->image, 0)) {
        differ(call, "the image of a refused call", results);
    }
    both_said = (struct text){side->reply.octets, written.reply};
}

struct call usual(enum what what, uint64_t one, uint64_t other, struct text octets) {
    return (struct call){what,
                         one,
                         other,
                         octets,
                         UMBRELNIC_IMAGE_OCTETS,
                         UMBRELNIC_REPLY_OCTETS,
                         UMBRELNIC_ANSWER_OCTETS,
                         UMBRELNIC_NAME_OCTETS};
}

struct result both(const struct call *call) {
    static uint8_t longer[2 * UMBRELNIC_IMAGE_OCTETS];
    struct result results[2];
    if (sides[0].face == NULL) {
        prepare();
    }
    size_t shift = draw(PAGE);
    bool at_end = draw(4) != 0;
    /* an image that is too long goes on in zeros */
    memcpy(longer, both_image, sizeof both_image);
    lend(&text, call->text.size, call->text.size > 0 ? call->text.octets : noise, at_end);
    if (call->text.size == 0 && draw(2) == 0) {
        text.octets = NULL;
    }
    for (size_t i = 0; i < 2; i++) {
        lend_to(&sides[i], call, longer, shift, at_end);
        results[i] = call_side(&sides[i], call);
    }
    both_calls++;
    compare(call, results);
    if (call->image_octets == UMBRELNIC_IMAGE_OCTETS) {
        memcpy(both_image, sides[0].image.octets, UMBRELNIC_IMAGE_OCTETS);
    }
    return results[0];
}
