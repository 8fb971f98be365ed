/* The model: the image, its test, and the calls. */
#include "model.h"
#include "layout.h"
#include "model_lines.h"
#include <stdbool.h>
#include <string.h>

/* "An exchange sends at most 16 challenges" */
enum { MOST_CHALLENGES = 16 };

/* --- which images are taken --- */

/* Octets are tested where they stand, many at a time: wide loads joined by "or", and loops of 16 turns without a branch, of which a
   compiler makes vectors. Where a length is no multiple of what is looked at, some octets are looked at twice. */

/* 0 where all of eight octets, or of 32, are 0. */
static inline uint64_t any_of_8(const uint8_t *octets) {
    uint64_t all;
    memcpy(&all, octets, sizeof all);
    return all;
}

static inline uint64_t any_of_32(const uint8_t *octets) {
    return any_of_8(octets) | any_of_8(octets + 8) | any_of_8(octets + 16) | any_of_8(octets + 24);
}

/* "A free slot is 87 zeros": three times 32, of which the last two share nine. */
static inline bool is_free(const uint8_t *slot) {
    return (any_of_32(slot) | any_of_32(slot + 32) | any_of_32(slot + SLOT_OCTETS - 32)) == 0;
}

static inline bool no_name(const uint8_t *name) {
    return (any_of_32(name) | any_of_32(name + 32)) == 0;
}

/* A name and its padding: as many octets of its kind as there are, at least one, and zeros. So an octet that is not of the kind is
   a zero, and so is the octet after it; this is 0 where that holds. The last octet, with none after it, is looked at alone. */
static inline uint8_t wrong_in_name(const uint8_t *octet) {
    uint8_t both = octet[0] | octet[1];
    return model_is_graphic(octet[0]) ? 0 : both;
}

static inline uint8_t wrong_in_mechanism(const uint8_t *octet) {
    uint8_t both = octet[0] | octet[1];
    return model_is_mechanism_octet(octet[0]) ? 0 : both;
}

/* Four times 16 octets, of which the last two share one. */
static inline bool name_taken(const uint8_t *name) {
    uint8_t wrong[16];
    uint8_t last = name[UMBRELNIC_LONGEST_NAME - 1];
    for (size_t i = 0; i < sizeof wrong; i++) {
        wrong[i] = wrong_in_name(name + i) | wrong_in_name(name + 16 + i) | wrong_in_name(name + 32 + i) |
                   wrong_in_name(name + 47 + i);
    }
    return (any_of_8(wrong) | any_of_8(wrong + 8)) == 0 && name[0] != 0 && (last == 0 || model_is_graphic(last));
}

/* Twice 16 octets, which share 13. */
static inline bool mechanism_taken(const uint8_t *mechanism) {
    uint8_t wrong[16];
    uint8_t last = mechanism[UMBRELNIC_LONGEST_MECHANISM - 1];
    for (size_t i = 0; i < sizeof wrong; i++) {
        wrong[i] = wrong_in_mechanism(mechanism + i) | wrong_in_mechanism(mechanism + 3 + i);
    }
    return (any_of_8(wrong) | any_of_8(wrong + 8)) == 0 && mechanism[0] != 0 && (last == 0 || model_is_mechanism_octet(last)) &&
           (mechanism[CLIENT_FIRST] | mechanism[NEEDS_PROTECTION]) <= 1;
}

static const uint8_t *find_mechanism(const uint8_t *image, size_t count, const uint8_t *padded) {
    for (size_t i = 0; i < count; i++) {
        const uint8_t *mechanism = image + MECHANISMS + i * MECHANISM_OCTETS;
        if (memcmp(mechanism, padded, UMBRELNIC_LONGEST_MECHANISM) == 0) {
            return mechanism;
        }
    }
    return NULL;
}

static bool mechanisms_taken(const uint8_t *image) {
    static const uint8_t none[UMBRELNIC_MOST_MECHANISMS * MECHANISM_OCTETS];
    size_t count = image[MECHANISM_COUNT];
    if (count > UMBRELNIC_MOST_MECHANISMS) {
        return false;
    }
    for (size_t i = 0; i < count; i++) {
        const uint8_t *mechanism = image + MECHANISMS + i * MECHANISM_OCTETS;
        if (!mechanism_taken(mechanism) || find_mechanism(image, i, mechanism) != NULL) {
            return false;
        }
    }
    return memcmp(image + MECHANISMS + count * MECHANISM_OCTETS, none, (UMBRELNIC_MOST_MECHANISMS - count) * MECHANISM_OCTETS) == 0;
}

/* --- "numbers differ" --- */

static inline const uint8_t *slot_at(const uint8_t *image, size_t index) {
    return image + SLOTS + index * SLOT_OCTETS;
}

/* The slots met so far that have a connection's number, and those that have a ticket, each in a hash table of 512 buckets. A bucket is
   EMPTY or has a slot's index and IN_SLOT. A number's first bucket is its remainder modulo 509, the next ones are the digits of nine
   bits of its quotient times 2^32 divided by the golden ratio. Its slot stands in the first of them that was empty, or in none where
   none was. No bucket is ever emptied, so an equal number that comes later meets that slot, or again finds all taken by others. */
enum { BUCKETS = 512, FIRST_BUCKETS = 509, LOWEST_BIT = 23, EMPTY = 0, IN_SLOT = 64 };

struct met {
    uint8_t numbers[BUCKETS];
    uint8_t tickets[BUCKETS];
};

/* The first of a number's buckets that is empty or has its slot; NULL where other slots have them all. */
static inline uint8_t *bucket_of(const uint8_t *image, size_t field, uint64_t number, uint8_t buckets[BUCKETS]) {
    uint8_t *bucket = &buckets[number % FIRST_BUCKETS];
    uint64_t digits = (number / FIRST_BUCKETS & UINT32_MAX) * 2654435769 >> LOWEST_BIT;
    while (*bucket != EMPTY && get_number(slot_at(image, *bucket - IN_SLOT) + field) != number) {
        if (digits == 0) {
            return NULL;
        }
        bucket = &buckets[digits % BUCKETS];
        digits /= BUCKETS;
    }
    return bucket;
}

/* Where all buckets are taken by others, the slots before are looked through. */
static bool stands_before(const uint8_t *image, size_t index, size_t field, uint64_t number) {
    for (size_t i = 0; i < index; i++) {
        const uint8_t *slot = slot_at(image, i);
        bool has_one = field == NUMBER ? slot[IS_OPEN] == 1 : slot[PHASE] == WAITING;
        if (has_one && get_number(slot + field) == number) {
            return true;
        }
    }
    return false;
}

/* Whether no slot before has the number of this one in a field, NUMBER or TICKET. */
static inline bool is_new(const uint8_t *image, size_t index, size_t field, uint8_t buckets[BUCKETS]) {
    uint64_t number = get_number(slot_at(image, index) + field);
    uint8_t *bucket = bucket_of(image, field, number, buckets);
    if (bucket == NULL) {
        return !stands_before(image, index, field, number);
    }
    if (*bucket != EMPTY) {
        return false;
    }
    *bucket = (uint8_t)(index + IN_SLOT);
    return true;
}

/* --- slots --- */

/* What belongs to one phase is zero in the others; "waiting tickets likewise". */
static inline bool phase_taken(const uint8_t *image, size_t index, struct met *met) {
    const uint8_t *slot = slot_at(image, index);
    uint64_t ticket = get_number(slot + TICKET);
    switch (slot[PHASE]) {
    case IDLE:
        return slot[SENT] == 0 && ticket == 0 && no_name(slot + NAME);
    case SIGNED_IN:
        return slot[SENT] == 0 && ticket == 0 && name_taken(slot + NAME);
    case AWAITING:
        return slot[SENT] <= MOST_CHALLENGES && ticket == 0 && no_name(slot + NAME);
    case WAITING:
        return slot[SENT] <= MOST_CHALLENGES && no_name(slot + NAME) && ticket < get_number(image + NEXT_TICKET) &&
               is_new(image, index, TICKET, met->tickets);
    default:
        return false;
    }
}

/* "numbers differ and are below the next"; "adding has ended if a connection is open" */
static inline bool open_slot_taken(const uint8_t *image, size_t index, struct met *met) {
    const uint8_t *slot = slot_at(image, index);
    return image[SEALED] == 1 && (slot[PROFILE] | slot[PROTECTED] | slot[GREETED] | slot[TRANSACTION]) <= 1 &&
           get_number(slot + NUMBER) < get_number(image + NEXT_CONNECTION) && is_new(image, index, NUMBER, met->numbers) &&
           phase_taken(image, index, met);
}

static bool slots_taken(const uint8_t *image) {
    struct met met;
    memset(&met, EMPTY, sizeof met);
    for (size_t i = 0; i < UMBRELNIC_MOST_CONNECTIONS; i++) {
        if (slot_at(image, i)[IS_OPEN] == 1 ? !open_slot_taken(image, i, &met) : !is_free(slot_at(image, i))) {
            return false;
        }
    }
    return true;
}

static bool taken(const uint8_t *image, size_t octets) {
    return octets == UMBRELNIC_IMAGE_OCTETS && image[SEALED] <= 1 && mechanisms_taken(image) && slots_taken(image);
}

/* --- where a connection is --- */

/* The offset of a slot, or NO_SLOT. */
#define NO_SLOT 0

static size_t slot_of_connection(const uint8_t *image, uint64_t connection) {
    for (size_t at = SLOTS; at < UMBRELNIC_IMAGE_OCTETS; at += SLOT_OCTETS) {
        if (image[at + IS_OPEN] == 1 && get_number(image + at + NUMBER) == connection) {
            return at;
        }
    }
    return NO_SLOT;
}

static size_t slot_of_ticket(const uint8_t *image, uint64_t ticket) {
    for (size_t at = SLOTS; at < UMBRELNIC_IMAGE_OCTETS; at += SLOT_OCTETS) {
        if (image[at + PHASE] == WAITING && get_number(image + at + TICKET) == ticket) {
            return at;
        }
    }
    return NO_SLOT;
}

static size_t free_slot(const uint8_t *image) {
    for (size_t at = SLOTS; at < UMBRELNIC_IMAGE_OCTETS; at += SLOT_OCTETS) {
        if (image[at + IS_OPEN] == 0) {
            return at;
        }
    }
    return NO_SLOT;
}

static void enter(uint8_t *slot, uint8_t phase, uint8_t sent) {
    slot[PHASE] = phase;
    slot[SENT] = sent;
    put_number(slot + TICKET, 0);
}

/* --- what a client hears --- */

enum event {
    SUCCEEDED,
    TRANSITION_NEEDED,
    TEMPORARY_FAILURE,
    ANSWER_TOO_LONG,
    NOT_UNDERSTOOD,
    SYNTAX_ERROR,
    CANCELLED,
    INITIAL_NOT_ALLOWED,
    WRONG_MOMENT,
    NOT_AVAILABLE,
    TOO_WEAK,
    NOT_ACCEPTED,
    EVENTS,
};

struct profile {
    size_t command_limit;
    size_t mail_limit;
    size_t answer_limit;
    const char *challenge;
    const char *replies[EVENTS];
};

static const struct profile profiles[] = {
    [UMBRELNIC_SMTP] = {510, 1010, 12286, "334 ", {
        [SUCCEEDED] = "235 2.7.0 Authentication succeeded\r\n",
        [TRANSITION_NEEDED] = "432 4.7.12 Password transition needed\r\n",
        [TEMPORARY_FAILURE] = "454 4.7.0 Temporary authentication failure\r\n",
        [ANSWER_TOO_LONG] = "500 5.5.6 Authentication line too long\r\n",
        [NOT_UNDERSTOOD] = "500 5.5.2 Line not understood\r\n",
        [SYNTAX_ERROR] = "501 5.5.2 Syntax error\r\n",
        [CANCELLED] = "501 5.7.0 Authentication cancelled\r\n",
        [INITIAL_NOT_ALLOWED] = "501 5.7.0 Initial response not allowed\r\n",
        [WRONG_MOMENT] = "503 5.5.1 Not permitted now\r\n",
        [NOT_AVAILABLE] = "504 5.5.4 Mechanism not available\r\n",
        [TOO_WEAK] = "534 5.7.9 Mechanism too weak\r\n",
        [NOT_ACCEPTED] = "535 5.7.8 Credentials not accepted\r\n",
    }},
    [UMBRELNIC_POP3] = {253, 253, 12286, "+ ", {
        [SUCCEEDED] = "+OK Authenticated\r\n",
        [TRANSITION_NEEDED] = "-ERR [AUTH] Password transition needed\r\n",
        [TEMPORARY_FAILURE] = "-ERR [SYS/TEMP] Temporary authentication failure\r\n",
        [ANSWER_TOO_LONG] = "-ERR Authentication line too long\r\n",
        [NOT_UNDERSTOOD] = "-ERR Line not understood\r\n",
        [SYNTAX_ERROR] = "-ERR Syntax error\r\n",
        [CANCELLED] = "-ERR Authentication cancelled\r\n",
        [INITIAL_NOT_ALLOWED] = "-ERR Initial response not allowed\r\n",
        [WRONG_MOMENT] = "-ERR Not permitted now\r\n",
        [NOT_AVAILABLE] = "-ERR Mechanism not available\r\n",
        [TOO_WEAK] = "-ERR Mechanism too weak\r\n",
        [NOT_ACCEPTED] = "-ERR [AUTH] Credentials not accepted\r\n",
    }},
};

static size_t put_reply(const uint8_t *slot, enum event event, uint8_t *reply) {
    const char *text = profiles[slot[PROFILE]].replies[event];
    size_t size = strlen(text);
    memcpy(reply, text, size);
    return size;
}

static size_t put_challenge(const uint8_t *slot, const uint8_t *data, size_t size, uint8_t *reply) {
    const char *prefix = profiles[slot[PROFILE]].challenge;
    size_t at = strlen(prefix);
    memcpy(reply, prefix, at);
    at += model_base64_encode(data, size, reply + at);
    memcpy(reply + at, "\r\n", 2);
    return at + 2;
}

/* --- a line --- */

/* A line for a connection, with what is lent. */
struct event_line {
    uint8_t *image;
    uint8_t *slot;
    const uint8_t *line;
    size_t size;
    uint8_t *reply;
    uint8_t *answer;
};

static struct umbrelnic_line_answer refused(uint64_t refusal) {
    return (struct umbrelnic_line_answer){.refusal = refusal};
}

static struct umbrelnic_line_answer forward(uint64_t identity, size_t length) {
    return (struct umbrelnic_line_answer){.kind = UMBRELNIC_FORWARD, .identity = identity, .length = length};
}

static struct umbrelnic_line_answer say(const struct event_line *event, enum event what) {
    return (struct umbrelnic_line_answer){.kind = UMBRELNIC_REPLY, .length = put_reply(event->slot, what, event->reply)};
}

/* Asks the password service; the text is valid base64, and empty for a start. */
static struct umbrelnic_line_answer ask(const struct event_line *event, uint64_t starts, const uint8_t *text, size_t size,
                                        size_t length) {
    uint64_t ticket = get_number(event->image + NEXT_TICKET);
    if (ticket == UINT64_MAX) {
        return refused(UMBRELNIC_EXHAUSTED);
    }
    put_number(event->image + NEXT_TICKET, ticket + 1);
    event->slot[PHASE] = WAITING;
    put_number(event->slot + TICKET, ticket);
    model_base64_decode(text, size, event->answer);
    return (struct umbrelnic_line_answer){.kind = UMBRELNIC_QUERY, .ticket = ticket, .starts = starts, .length = length};
}

/* "already signed in; on SMTP also not greeted or in a transaction" */
static bool auth_at_wrong_moment(const uint8_t *slot) {
    if (slot[PHASE] == SIGNED_IN) {
        return true;
    }
    return slot[PROFILE] == UMBRELNIC_SMTP && (slot[GREETED] == 0 || slot[TRANSACTION] == 1);
}

/* The mechanism that an AUTH line names, if it can be had on this connection. */
static const uint8_t *available(const struct event_line *event, const struct model_auth *auth) {
    const uint8_t *mechanism = find_mechanism(event->image, event->image[MECHANISM_COUNT], auth->mechanism);
    if (mechanism == NULL || (mechanism[NEEDS_PROTECTION] == 1 && event->slot[PROTECTED] == 0)) {
        return NULL;
    }
    return mechanism;
}

static struct umbrelnic_line_answer empty_challenge(const struct event_line *event) {
    enter(event->slot, AWAITING, 1);
    return (struct umbrelnic_line_answer){.kind = UMBRELNIC_REPLY, .length = put_challenge(event->slot, NULL, 0, event->reply)};
}

static struct umbrelnic_line_answer auth_line(const struct event_line *event) {
    if (auth_at_wrong_moment(event->slot)) {
        return say(event, WRONG_MOMENT);
    }
    struct model_auth auth = model_read_auth(event->line, event->size);
    if (!auth.good) {
        return say(event, SYNTAX_ERROR);
    }
    const uint8_t *mechanism = available(event, &auth);
    if (mechanism == NULL) {
        return say(event, NOT_AVAILABLE);
    }
    if (auth.initial) {
        return mechanism[CLIENT_FIRST] == 1 ? ask(event, 0, auth.text, auth.text_octets, auth.length)
                                            : say(event, INITIAL_NOT_ALLOWED);
    }
    return mechanism[CLIENT_FIRST] == 1 ? empty_challenge(event) : ask(event, 1, NULL, 0, 0);
}

/* ""<>" if nobody is signed in or AUTH says so, otherwise none if AUTH is absent, else the decoded address" */
static struct umbrelnic_line_answer relay(const struct event_line *event, const struct model_mail *mail) {
    if (event->slot[PHASE] != SIGNED_IN || mail->sender == NULL_SENDER) {
        return forward(UMBRELNIC_NULL, 0);
    }
    if (mail->sender == NO_SENDER) {
        return forward(UMBRELNIC_ABSENT, 0);
    }
    return forward(UMBRELNIC_ADDRESS, model_xtext_decode(mail->text, mail->text_octets, event->answer));
}

static struct umbrelnic_line_answer mail_line(const struct event_line *event) {
    if (event->slot[TRANSACTION] == 1) {
        return say(event, WRONG_MOMENT);
    }
    struct model_mail mail = model_read_mail(event->line, event->size);
    if (!mail.good) {
        return say(event, SYNTAX_ERROR);
    }
    event->slot[TRANSACTION] = 1;
    return relay(event, &mail);
}

/* EHLO and HELO "need a space and at least one octet more" */
static struct umbrelnic_line_answer greeting(const struct event_line *event, uint8_t greeted) {
    if (event->size < sizeof "EHLO " - 1 + 1) {
        return say(event, SYNTAX_ERROR);
    }
    event->slot[GREETED] = greeted;
    event->slot[TRANSACTION] = 0;
    return forward(UMBRELNIC_NO_MAIL, 0);
}

/* RSET and QUIT "take nothing after the verb"; only RSET ends a transaction */
static struct umbrelnic_line_answer bare(const struct event_line *event, enum model_verb verb) {
    if (event->size != sizeof "RSET" - 1) {
        return say(event, SYNTAX_ERROR);
    }
    if (verb == RSET) {
        event->slot[TRANSACTION] = 0;
    }
    return forward(UMBRELNIC_NO_MAIL, 0);
}

static struct umbrelnic_line_answer smtp_command(const struct event_line *event, enum model_verb verb) {
    switch (verb) {
    case EHLO:
        return greeting(event, 1);
    case HELO:
        return greeting(event, 0);
    case RSET:
    case QUIT:
        return bare(event, verb);
    case MAIL:
        return mail_line(event);
    case AUTH:
        return auth_line(event);
    default:
        return forward(UMBRELNIC_NO_MAIL, 0);
    }
}

static struct umbrelnic_line_answer pop3_command(const struct event_line *event, enum model_verb verb) {
    switch (verb) {
    case USER:
    case PASS:
    case APOP:
        return say(event, WRONG_MOMENT);
    case AUTH:
        return auth_line(event);
    default:
        return forward(UMBRELNIC_NO_MAIL, 0);
    }
}

/* "Length and forbidden octets are looked at first in every command." */
static struct umbrelnic_line_answer command(const struct event_line *event) {
    const struct profile *profile = &profiles[event->slot[PROFILE]];
    enum model_verb verb = model_verb(event->line, event->size);
    size_t limit = verb == MAIL ? profile->mail_limit : profile->command_limit;
    if (event->size > limit || model_has_forbidden(event->line, event->size)) {
        return say(event, NOT_UNDERSTOOD);
    }
    return event->slot[PROFILE] == UMBRELNIC_SMTP ? smtp_command(event, verb) : pop3_command(event, verb);
}

static struct umbrelnic_line_answer end_exchange(const struct event_line *event, enum event what) {
    enter(event->slot, IDLE, 0);
    return say(event, what);
}

/* "Answer lines: too long; "*"; not base64; else ask." */
static struct umbrelnic_line_answer answer_line(const struct event_line *event) {
    if (event->size > profiles[event->slot[PROFILE]].answer_limit) {
        return end_exchange(event, ANSWER_TOO_LONG);
    }
    if (event->size == 1 && event->line[0] == '*') {
        return end_exchange(event, CANCELLED);
    }
    size_t length = model_base64_measure(event->line, event->size);
    if (length == MODEL_MALFORMED) {
        return end_exchange(event, SYNTAX_ERROR);
    }
    return ask(event, 0, event->line, event->size, length);
}

static bool too_short(size_t reply_octets, size_t answer_octets) {
    return reply_octets < UMBRELNIC_REPLY_OCTETS || answer_octets < UMBRELNIC_ANSWER_OCTETS;
}

struct umbrelnic_line_answer model_line(uint8_t *image, size_t image_octets, uint64_t connection, const uint8_t *line,
                                        size_t line_octets, uint8_t *reply, size_t reply_octets, uint8_t *answer,
                                        size_t answer_octets) {
    if (too_short(reply_octets, answer_octets)) {
        return refused(UMBRELNIC_SHORT_BUFFER);
    }
    if (!taken(image, image_octets)) {
        return refused(UMBRELNIC_NOT_TAKEN);
    }
    size_t at = slot_of_connection(image, connection);
    if (at == NO_SLOT) {
        return refused(UMBRELNIC_NO_CONNECTION);
    }
    struct event_line event = {image, image + at, line, line_octets, reply, answer};
    if (event.slot[PHASE] == WAITING) {
        return refused(UMBRELNIC_WAITING);
    }
    return event.slot[PHASE] == AWAITING ? answer_line(&event) : command(&event);
}

/* --- a verdict --- */

static bool is_name(const uint8_t *name, size_t size) {
    return 1 <= size && size <= UMBRELNIC_LONGEST_NAME && model_name_octets(name, size) == size;
}

/* "challenge (0 to 9,210 octets); success with a name (1 to 64 octets of 21-7E hex); rejected, temporary, transition, weak,
   these four with no data" */
static bool is_listed(uint64_t verdict, const uint8_t *data, size_t size) {
    switch (verdict) {
    case UMBRELNIC_CHALLENGE:
        return size <= UMBRELNIC_CHALLENGE_OCTETS;
    case UMBRELNIC_SUCCESS:
        return is_name(data, size);
    case UMBRELNIC_REJECTED:
    case UMBRELNIC_TEMPORARY:
    case UMBRELNIC_TRANSITION:
    case UMBRELNIC_WEAK:
        return size == 0;
    default:
        return false;
    }
}

static size_t challenge(uint8_t *slot, const uint8_t *data, size_t size, uint8_t *reply) {
    if (slot[SENT] == MOST_CHALLENGES) {
        enter(slot, IDLE, 0);
        return put_reply(slot, TEMPORARY_FAILURE, reply);
    }
    enter(slot, AWAITING, slot[SENT] + 1);
    return put_challenge(slot, data, size, reply);
}

static size_t success(uint8_t *slot, const uint8_t *name, size_t size, uint8_t *reply) {
    enter(slot, SIGNED_IN, 0);
    memcpy(slot + NAME, name, size);
    return put_reply(slot, SUCCEEDED, reply);
}

static size_t failure(uint8_t *slot, uint64_t verdict, uint8_t *reply) {
    static const enum event events[] = {
        [UMBRELNIC_REJECTED] = NOT_ACCEPTED,
        [UMBRELNIC_TEMPORARY] = TEMPORARY_FAILURE,
        [UMBRELNIC_TRANSITION] = TRANSITION_NEEDED,
        [UMBRELNIC_WEAK] = TOO_WEAK,
    };
    enter(slot, IDLE, 0);
    return put_reply(slot, events[verdict], reply);
}

struct umbrelnic_said model_verdict(uint8_t *image, size_t image_octets, uint64_t ticket, uint64_t verdict, const uint8_t *data,
                                    size_t data_octets, uint8_t *reply, size_t reply_octets, uint8_t *answer,
                                    size_t answer_octets) {
    (void)answer;
    if (too_short(reply_octets, answer_octets)) {
        return (struct umbrelnic_said){.refusal = UMBRELNIC_SHORT_BUFFER};
    }
    if (!taken(image, image_octets)) {
        return (struct umbrelnic_said){.refusal = UMBRELNIC_NOT_TAKEN};
    }
    size_t at = slot_of_ticket(image, ticket);
    if (at == NO_SLOT) {
        return (struct umbrelnic_said){.refusal = UMBRELNIC_NO_TICKET};
    }
    if (!is_listed(verdict, data, data_octets)) {
        return (struct umbrelnic_said){.refusal = UMBRELNIC_NOT_LISTED};
    }
    if (verdict == UMBRELNIC_CHALLENGE) {
        return (struct umbrelnic_said){.length = challenge(image + at, data, data_octets, reply)};
    }
    if (verdict == UMBRELNIC_SUCCESS) {
        return (struct umbrelnic_said){.length = success(image + at, data, data_octets, reply)};
    }
    return (struct umbrelnic_said){.length = failure(image + at, verdict, reply)};
}

/* --- the other calls --- */

uint64_t model_image_octets(void) {
    return UMBRELNIC_IMAGE_OCTETS;
}

uint64_t model_make(uint8_t *image, size_t image_octets, uint64_t connection, uint64_t ticket) {
    if (image_octets != UMBRELNIC_IMAGE_OCTETS) {
        return UMBRELNIC_NOT_TAKEN;
    }
    memset(image, 0, image_octets);
    put_number(image + NEXT_CONNECTION, connection);
    put_number(image + NEXT_TICKET, ticket);
    return 0;
}

uint64_t model_add(uint8_t *image, size_t image_octets, const uint8_t *name, size_t name_octets, uint64_t client_first,
                   uint64_t needs_protection) {
    uint8_t padded[UMBRELNIC_LONGEST_MECHANISM] = {0};
    if (!taken(image, image_octets)) {
        return UMBRELNIC_NOT_TAKEN;
    }
    if (client_first > 1 || needs_protection > 1) {
        return UMBRELNIC_NOT_LISTED;
    }
    if (image[SEALED] == 1) {
        return UMBRELNIC_SEALED;
    }
    if (!model_is_mechanism(name, name_octets)) {
        return UMBRELNIC_BAD_NAME;
    }
    memcpy(padded, name, name_octets);
    size_t count = image[MECHANISM_COUNT];
    if (find_mechanism(image, count, padded) != NULL) {
        return UMBRELNIC_NAME_PRESENT;
    }
    if (count == UMBRELNIC_MOST_MECHANISMS) {
        return UMBRELNIC_TABLE_FULL;
    }
    uint8_t *mechanism = image + MECHANISMS + count * MECHANISM_OCTETS;
    memcpy(mechanism, padded, sizeof padded);
    mechanism[CLIENT_FIRST] = (uint8_t)client_first;
    mechanism[NEEDS_PROTECTION] = (uint8_t)needs_protection;
    image[MECHANISM_COUNT]++;
    return 0;
}

struct umbrelnic_opened model_open(uint8_t *image, size_t image_octets, uint64_t profile, uint64_t protected_) {
    if (!taken(image, image_octets)) {
        return (struct umbrelnic_opened){.refusal = UMBRELNIC_NOT_TAKEN};
    }
    if (profile > UMBRELNIC_POP3 || protected_ > 1) {
        return (struct umbrelnic_opened){.refusal = UMBRELNIC_NOT_LISTED};
    }
    size_t at = free_slot(image);
    if (at == NO_SLOT) {
        return (struct umbrelnic_opened){.refusal = UMBRELNIC_FULL};
    }
    uint64_t connection = get_number(image + NEXT_CONNECTION);
    if (connection == UINT64_MAX) {
        return (struct umbrelnic_opened){.refusal = UMBRELNIC_EXHAUSTED};
    }
    put_number(image + NEXT_CONNECTION, connection + 1);
    image[SEALED] = 1;
    image[at + IS_OPEN] = 1;
    put_number(image + at + NUMBER, connection);
    image[at + PROFILE] = (uint8_t)profile;
    image[at + PROTECTED] = (uint8_t)protected_;
    return (struct umbrelnic_opened){.connection = connection};
}

uint64_t model_mail_ended(uint8_t *image, size_t image_octets, uint64_t connection) {
    if (!taken(image, image_octets)) {
        return UMBRELNIC_NOT_TAKEN;
    }
    size_t at = slot_of_connection(image, connection);
    if (at == NO_SLOT) {
        return UMBRELNIC_NO_CONNECTION;
    }
    image[at + TRANSACTION] = 0;
    return 0;
}

struct umbrelnic_identity model_who(const uint8_t *image, size_t image_octets, uint64_t connection, uint8_t *name,
                                    size_t name_octets) {
    if (name_octets < UMBRELNIC_NAME_OCTETS) {
        return (struct umbrelnic_identity){.refusal = UMBRELNIC_SHORT_BUFFER};
    }
    if (!taken(image, image_octets)) {
        return (struct umbrelnic_identity){.refusal = UMBRELNIC_NOT_TAKEN};
    }
    size_t at = slot_of_connection(image, connection);
    if (at == NO_SLOT) {
        return (struct umbrelnic_identity){.refusal = UMBRELNIC_NO_CONNECTION};
    }
    if (image[at + PHASE] != SIGNED_IN) {
        return (struct umbrelnic_identity){.signed_in = 0};
    }
    size_t size = model_name_octets(image + at + NAME, UMBRELNIC_LONGEST_NAME);
    memcpy(name, image + at + NAME, size);
    return (struct umbrelnic_identity){.signed_in = 1, .length = size};
}

/* "clears the place and voids its ticket" */
uint64_t model_close(uint8_t *image, size_t image_octets, uint64_t connection) {
    if (!taken(image, image_octets)) {
        return UMBRELNIC_NOT_TAKEN;
    }
    size_t at = slot_of_connection(image, connection);
    if (at == NO_SLOT) {
        return UMBRELNIC_NO_CONNECTION;
    }
    memset(image + at, 0, SLOT_OCTETS);
    return 0;
}
