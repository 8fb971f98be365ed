/* The model's readings of lines. */
#include "model_lines.h"

/* --- base64 --- */

/* The number of a letter, and 64; 0 for an octet that is no letter. */
static const uint8_t numbers[256] = {
    ['A'] = 64, 65, 66, 67, 68, 69, 70, 71, 72, 73, 74, 75, 76, 77, 78, 79, 80, 81, 82, 83, 84, 85, 86, 87, 88, 89,
    ['a'] = 90, 91, 92, 93, 94, 95, 96, 97, 98, 99, 100, 101, 102, 103, 104, 105, 106, 107, 108, 109, 110, 111, 112, 113, 114, 115,
    ['0'] = 116, 117, 118, 119, 120, 121, 122, 123, 124, 125,
    ['+'] = 126,
    ['/'] = 127,
};

static const char letters[] = "ABCDEFGHIJKLMNOPQRSTUVWXYZabcdefghijklmnopqrstuvwxyz0123456789+/";

static size_t pads(const uint8_t *text, size_t size) {
    if (text[size - 1] != '=') {
        return 0;
    }
    return text[size - 2] == '=' ? 2 : 1;
}

size_t model_base64_measure(const uint8_t *text, size_t size) {
    /* the bits of the last letter that are not used, by the number of "=" */
    static const uint8_t unused[] = {0, 3, 15};
    if (size == 0) {
        return 0;
    }
    if (size % 4 != 0) {
        return MODEL_MALFORMED;
    }
    size_t pad = pads(text, size);
    size_t end = size - pad;
    for (size_t i = 0; i < end; i++) {
        if (numbers[text[i]] == 0) {
            return MODEL_MALFORMED;
        }
    }
    if ((numbers[text[end - 1]] & unused[pad]) != 0) {
        return MODEL_MALFORMED;
    }
    return size / 4 * 3 - pad;
}

static uint32_t number(uint8_t letter) {
    return numbers[letter] & 63;
}

static uint32_t joined(const uint8_t *quad) {
    return number(quad[0]) << 18 | number(quad[1]) << 12 | number(quad[2]) << 6 | number(quad[3]);
}

void model_base64_decode(const uint8_t *text, size_t size, uint8_t *out) {
    if (size == 0) {
        return;
    }
    /* the last group is apart: it may have "=", whose number is 0 */
    size_t last = size - 4;
    for (size_t i = 0; i < last; i += 4) {
        uint32_t bits = joined(text + i);
        *out++ = (uint8_t)(bits >> 16);
        *out++ = (uint8_t)(bits >> 8);
        *out++ = (uint8_t)bits;
    }
    uint32_t bits = joined(text + last);
    size_t pad = pads(text, size);
    *out++ = (uint8_t)(bits >> 16);
    if (pad < 2) {
        *out++ = (uint8_t)(bits >> 8);
    }
    if (pad < 1) {
        *out++ = (uint8_t)bits;
    }
}

static void put_quad(uint32_t bits, uint8_t *out) {
    out[0] = (uint8_t)letters[bits >> 18];
    out[1] = (uint8_t)letters[bits >> 12 & 63];
    out[2] = (uint8_t)letters[bits >> 6 & 63];
    out[3] = (uint8_t)letters[bits & 63];
}

size_t model_base64_encode(const uint8_t *octets, size_t size, uint8_t *out) {
    size_t at = 0;
    size_t i = 0;
    for (; i + 3 <= size; i += 3) {
        put_quad((uint32_t)octets[i] << 16 | (uint32_t)octets[i + 1] << 8 | octets[i + 2], out + at);
        at += 4;
    }
    if (size - i == 2) {
        put_quad((uint32_t)octets[i] << 16 | (uint32_t)octets[i + 1] << 8, out + at);
        out[at + 3] = '=';
        at += 4;
    } else if (size - i == 1) {
        put_quad((uint32_t)octets[i] << 16, out + at);
        out[at + 2] = '=';
        out[at + 3] = '=';
        at += 4;
    }
    return at;
}

/* --- octets and words --- */

static bool is_digit(uint8_t octet) {
    return '0' <= octet && octet <= '9';
}

static bool is_capital(uint8_t octet) {
    return 'A' <= octet && octet <= 'Z';
}

static uint8_t capital(uint8_t octet) {
    return 'a' <= octet && octet <= 'z' ? octet - 'a' + 'A' : octet;
}

size_t model_name_octets(const uint8_t *octets, size_t size) {
    size_t count = 0;
    while (count < size && model_is_graphic(octets[count])) {
        count++;
    }
    return count;
}

bool model_has_forbidden(const uint8_t *line, size_t size) {
    for (size_t i = 0; i < size; i++) {
        if (line[i] == '\0' || line[i] == '\r' || line[i] == '\n') {
            return true;
        }
    }
    return false;
}

/* Whether the first octets are this word, which is in capitals, case ignored. There must be so many. */
static bool begins(const uint8_t *octets, const char *word) {
    for (size_t i = 0; word[i] != '\0'; i++) {
        if (capital(octets[i]) != (uint8_t)word[i]) {
            return false;
        }
    }
    return true;
}

/* --- verbs --- */

/* "Verbs end at the first space or line end": all that matter have four letters. */
enum { VERB_OCTETS = 4 };

enum model_verb model_verb(const uint8_t *line, size_t size) {
    static const char *const verbs[] = {
        [EHLO] = "EHLO", [HELO] = "HELO", [RSET] = "RSET", [QUIT] = "QUIT", [MAIL] = "MAIL",
        [AUTH] = "AUTH", [USER] = "USER", [PASS] = "PASS", [APOP] = "APOP",
    };
    if (size < VERB_OCTETS || (size > VERB_OCTETS && line[VERB_OCTETS] != ' ')) {
        return OTHER_VERB;
    }
    for (enum model_verb verb = EHLO; verb <= APOP; verb++) {
        if (begins(line, verbs[verb])) {
            return verb;
        }
    }
    return OTHER_VERB;
}

/* --- AUTH --- */

bool model_is_mechanism(const uint8_t *name, size_t size) {
    size_t count = 0;
    while (count < size && model_is_mechanism_octet(name[count])) {
        count++;
    }
    return 1 <= size && size <= MODEL_LONGEST_MECHANISM && count == size;
}

/* M-105: in a line the small letters of a mechanism are read as capitals, and then its form is looked at. */
static bool read_mechanism(struct model_auth *auth, const uint8_t *word, size_t size) {
    for (size_t i = 0; i < size && i < MODEL_LONGEST_MECHANISM; i++) {
        auth->mechanism[i] = capital(word[i]);
    }
    return size <= MODEL_LONGEST_MECHANISM && model_is_mechanism(auth->mechanism, size);
}

static size_t to_space(const uint8_t *line, size_t size, size_t from) {
    while (from < size && line[from] != ' ') {
        from++;
    }
    return from;
}

/* What stands behind the mechanism and a space: "=" or non-empty base64. */
static bool read_initial(struct model_auth *auth, const uint8_t *text, size_t size) {
    auth->initial = true;
    if (size == 1 && text[0] == '=') {
        return true;
    }
    auth->text = text;
    auth->text_octets = size;
    auth->length = model_base64_measure(text, size);
    return size > 0 && auth->length != MODEL_MALFORMED;
}

/* "grammar `AUTH`, one space, mechanism, optionally one space and "=" or non-empty base64" */
struct model_auth model_read_auth(const uint8_t *line, size_t size) {
    struct model_auth auth = {.good = false};
    size_t start = VERB_OCTETS + 1;
    if (size <= start) {
        return auth;
    }
    size_t end = to_space(line, size, start);
    if (!read_mechanism(&auth, line + start, end - start)) {
        return auth;
    }
    auth.good = end == size || read_initial(&auth, line + end + 1, size - end - 1);
    return auth;
}

/* --- xtext --- */

static int hex(uint8_t octet) {
    if (is_digit(octet)) {
        return octet - '0';
    }
    return 'A' <= octet && octet <= 'F' ? octet - 'A' + 10 : -1;
}

/* The octet that stands at an index, and how many octets of text stand for it; 0 where it is no xtext. */
static size_t xtext_octet(const uint8_t *text, size_t size, size_t at, uint8_t *octet) {
    if (text[at] != '+') {
        *octet = text[at];
        return model_is_graphic(text[at]) && text[at] != '=' ? 1 : 0;
    }
    if (size - at < 3 || hex(text[at + 1]) < 0 || hex(text[at + 2]) < 0) {
        return 0;
    }
    *octet = (uint8_t)(hex(text[at + 1]) * 16 + hex(text[at + 2]));
    return 3;
}

size_t model_xtext_decode(const uint8_t *text, size_t size, uint8_t *out) {
    size_t length = 0;
    for (size_t at = 0; at < size;) {
        at += xtext_octet(text, size, at, &out[length]);
        length++;
    }
    return length;
}

/* What an identity's xtext says. An address has "an octet before and after some "@"". */
enum identity { BAD, NULL_IDENTITY, ADDRESS };

static enum identity read_identity(const uint8_t *text, size_t size) {
    size_t length = 0;
    bool after_at = false; /* the octet before is an "@", and not the first octet */
    bool address = false;
    bool null = true; /* so far it is a part of "<>" */
    for (size_t at = 0; at < size;) {
        uint8_t octet;
        size_t step = xtext_octet(text, size, at, &octet);
        if (step == 0) {
            return BAD;
        }
        address = address || after_at;
        after_at = octet == '@' && length > 0;
        null = null && length < 2 && octet == "<>"[length];
        length++;
        at += step;
    }
    if (address) {
        return ADDRESS;
    }
    return null && length == 2 ? NULL_IDENTITY : BAD;
}

/* --- MAIL --- */

static bool is_keyword_octet(uint8_t octet) {
    return is_capital(capital(octet)) || is_digit(octet);
}

/* Where the keyword ends that begins at an index; there itself if none does. */
static size_t keyword_end(const uint8_t *line, size_t size, size_t at) {
    size_t end = at;
    while (end < size && (is_keyword_octet(line[end]) || (line[end] == '-' && end > at))) {
        end++;
    }
    return end;
}

/* Where a value ends: "one or more octets of 21-7E other than "="". */
static size_t value_end(const uint8_t *line, size_t size, size_t at) {
    while (at < size && model_is_graphic(line[at]) && line[at] != '=') {
        at++;
    }
    return at;
}

struct parameters {
    struct model_mail *mail;
    bool auth;
    bool submitter;
};

static bool take_auth(struct parameters *seen, const uint8_t *value, size_t size) {
    enum identity identity = read_identity(value, size);
    if (seen->auth || identity == BAD) {
        return false;
    }
    seen->auth = true;
    seen->mail->sender = identity == ADDRESS ? ADDRESS_SENDER : NULL_SENDER;
    seen->mail->text = value;
    seen->mail->text_octets = size;
    return true;
}

static bool take_submitter(struct parameters *seen, const uint8_t *value, size_t size) {
    if (seen->submitter || read_identity(value, size) != ADDRESS) {
        return false;
    }
    seen->submitter = true;
    return true;
}

/* A value of no octets is none: it is not xtext of an identity either. */
static bool take_parameter(struct parameters *seen, const uint8_t *keyword, size_t size, const uint8_t *value,
                           size_t value_octets) {
    if (size == 4 && begins(keyword, "AUTH")) {
        return take_auth(seen, value, value_octets);
    }
    if (size == 9 && begins(keyword, "SUBMITTER")) {
        return take_submitter(seen, value, value_octets);
    }
    return true;
}

/* Reads a parameter from the space before it; gives where it ends, or MODEL_MALFORMED. */
static size_t read_parameter(struct parameters *seen, const uint8_t *line, size_t size, size_t at) {
    if (line[at] != ' ') {
        return MODEL_MALFORMED;
    }
    size_t keyword = at + 1;
    size_t stop = keyword_end(line, size, keyword);
    size_t value = stop;
    size_t end = stop;
    if (stop == keyword) {
        return MODEL_MALFORMED;
    }
    if (stop < size && line[stop] == '=') {
        value = stop + 1;
        end = value_end(line, size, value);
        if (end == value) {
            return MODEL_MALFORMED;
        }
    }
    return take_parameter(seen, line + keyword, stop - keyword, line + value, end - value) ? end : MODEL_MALFORMED;
}

/* "`MAIL FROM:` (case ignored), "<", octets to the first ">", then parameters, each after one space" */
struct model_mail model_read_mail(const uint8_t *line, size_t size) {
    struct model_mail mail = {.good = false};
    struct parameters seen = {.mail = &mail};
    size_t at = 11;
    if (size < at || !begins(line, "MAIL FROM:<")) {
        return mail;
    }
    while (at < size && line[at] != '>') {
        at++;
    }
    if (at == size) {
        return mail;
    }
    at++;
    while (at < size) {
        at = read_parameter(&seen, line, size, at);
        if (at == MODEL_MALFORMED) {
            return mail;
        }
    }
    mail.good = true;
    return mail;
}
