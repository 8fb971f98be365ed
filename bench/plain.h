/* The same contracts in plain C: what a C programmer would write who wants the same answers. A text that is malformed
   and a buffer that is too short leave the buffer as it is, so decode measures before it writes. */
#ifndef PLAIN_H
#define PLAIN_H
#include "harness.h"

uint64_t plain_base64_measure(const uint8_t *text, size_t size);
uint64_t plain_base64_decode(const uint8_t *text, size_t size, uint8_t *out, size_t room);
uint64_t plain_base64_encode(const uint8_t *bytes, size_t size, uint8_t *out, size_t room, size_t at);

/* Weaker: writes as it reads, so that a malformed text leaves its first octets in out, and judges the room by the
   text's length and last letters. */
uint64_t plain_base64_decode_one_pass(const uint8_t *text, size_t size, uint8_t *out, size_t room);

uint64_t plain_xtext_measure(const uint8_t *text, size_t size);
uint64_t plain_xtext_decode(const uint8_t *text, size_t size, uint8_t *out, size_t room);
uint64_t plain_xtext_encode(const uint8_t *bytes, size_t size, uint8_t *out, size_t room, size_t at);

/* The profiles and the kinds of a line's reading, as in crates/benchface. */
enum { SMTP, POP3 };

enum {
    UNLISTED,
    NOT_UNDERSTOOD,
    SYNTAX,
    EHLO,
    HELO,
    RSET,
    QUIT,
    BARRED,
    OTHER,
    MAIL_MALFORMED,
    MAIL_ABSENT,
    MAIL_NULL,
    MAIL_ADDRESS,
    AUTH_MALFORMED,
    AUTH_ALONE,
    AUTH_INITIAL,
    RESPONSE_TOO_LONG,
    RESPONSE_CANCELLED,
    RESPONSE_MALFORMED,
    RESPONSE_LENGTH,
    KINDS
};

/* What a line says: of an address its xtext from one index up to another, and how many octets it stands for; of AUTH where the
   mechanism ends, where the base64 of an initial response begins, and how many octets it stands for. The rest is 0. */
struct reading {
    uint64_t kind;
    uint64_t to;
    uint64_t from;
    uint64_t length;
};

struct reading plain_command(uint64_t profile, const uint8_t *line, size_t size);
struct reading plain_response(uint64_t profile, const uint8_t *line, size_t size);
#endif
