/* What a line says: the model's readings of base64, verbs, AUTH and MAIL. */
#ifndef MODEL_LINES_H
#define MODEL_LINES_H
#include <stdbool.h>
#include <stddef.h>
#include <stdint.h>

/* How many octets a text of base64 decodes to; MODEL_MALFORMED where it is none. */
#define MODEL_MALFORMED SIZE_MAX
size_t model_base64_measure(const uint8_t *text, size_t size);

/* Decodes a text that was measured. */
void model_base64_decode(const uint8_t *text, size_t size, uint8_t *out);

/* Gives the length of what it writes. */
size_t model_base64_encode(const uint8_t *octets, size_t size, uint8_t *out);

/* The verbs that some rule is about. */
enum model_verb { OTHER_VERB, EHLO, HELO, RSET, QUIT, MAIL, AUTH, USER, PASS, APOP };
enum model_verb model_verb(const uint8_t *line, size_t size);

/* NUL, CR and LF are forbidden in every command. */
bool model_has_forbidden(const uint8_t *line, size_t size);

/* What may stand in a name that a connection signs in with. */
static inline bool model_is_graphic(uint8_t octet) {
    return 0x21 <= octet && octet <= 0x7e;
}

/* What may stand in a mechanism's name; a sum of yes and no, of which a compiler makes vectors. */
static inline bool model_is_mechanism_octet(uint8_t octet) {
    uint8_t kinds = ('A' <= octet && octet <= 'Z') + ('0' <= octet && octet <= '9') + (octet == '-') + (octet == '_');
    return kinds != 0;
}

enum { MODEL_LONGEST_MECHANISM = 20 };
bool model_is_mechanism(const uint8_t *name, size_t size);

/* How many octets at the start may stand in a name that a connection signs in with. */
size_t model_name_octets(const uint8_t *octets, size_t size);

/* A line whose verb is AUTH. The mechanism's name is in capitals and padded with NUL. The base64 of an initial response is empty for "=". */
struct model_auth {
    bool good;
    uint8_t mechanism[MODEL_LONGEST_MECHANISM];
    bool initial;
    const uint8_t *text;
    size_t text_octets;
    size_t length; /* what the text decodes to */
};
struct model_auth model_read_auth(const uint8_t *line, size_t size);

/* A line whose verb is MAIL, and what its AUTH parameter says. */
enum model_sender { NO_SENDER, NULL_SENDER, ADDRESS_SENDER };
struct model_mail {
    bool good;
    enum model_sender sender;
    const uint8_t *text; /* xtext, of an address */
    size_t text_octets;
};
struct model_mail model_read_mail(const uint8_t *line, size_t size);

/* Decodes the xtext of an address that was read, and gives its length. */
size_t model_xtext_decode(const uint8_t *text, size_t size, uint8_t *out);
#endif
