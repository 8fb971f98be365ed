/* Umbrelnic: the sign-in desk of a mail gateway.
 *
 * A host owns the sockets and the password service. It hands each line that a client sends to the desk, which answers with one of
 *   - forward: the line is none of the desk's business, hand it on to the mail server;
 *   - query:   ask the password service, under a ticket;
 *   - reply:   send this text to the client.
 * When the password service has a verdict on the ticket, the host hands it to the desk and sends the reply that comes back.
 *
 * The desk keeps nothing outside of an image: a buffer of UMBRELNIC_IMAGE_OCTETS octets of the host's that is lent to each call.
 *
 * What the host owes to each call:
 *   - a buffer is a pointer and the number of octets that it points to, all of which may be read and, unless it is const, written;
 *     with 0 octets the pointer may be NULL;
 *   - a buffer that is not const overlaps no other buffer of the same call;
 *   - one call at a time on an image, and nobody else reads or writes the lent buffers meanwhile;
 *   - between two calls nobody writes the image. (If somebody does, the next call is still safe: it is refused with
 *     UMBRELNIC_NOT_TAKEN, or goes on from what now stands there. That connections bear only names that they signed in with is
 *     then lost.) An image may be copied, saved and lent again.
 * Nothing else is owed: any number, any octets and any lengths may be passed.
 *
 * Every call gives a refusal, 0 where there is none: look at it first. A refused call changes neither the image nor any other buffer, and every
 * other number that it gives is 0. Where more than one refusal would fit, the one that stands first at the call is given.
 *
 * No call keeps a pointer, allocates, blocks, or calls back.
 */
#ifndef UMBRELNIC_H
#define UMBRELNIC_H

#include <stddef.h>
#include <stdint.h>

#ifdef __cplusplus
extern "C" {
#endif

/* ---- how many octets */

/* An image has just so many. (umbrelnic_image_octets() says what the library was built with.) */
#define UMBRELNIC_IMAGE_OCTETS 5762

/* A reply buffer, an answer buffer and a name buffer have at least so many. */
#define UMBRELNIC_REPLY_OCTETS 12288
#define UMBRELNIC_ANSWER_OCTETS 9213
#define UMBRELNIC_NAME_OCTETS 64

/* The longest challenge of a verdict, the longest name of one, and the longest name of a mechanism. */
#define UMBRELNIC_CHALLENGE_OCTETS 9210
#define UMBRELNIC_LONGEST_NAME 64
#define UMBRELNIC_LONGEST_MECHANISM 20

/* How many connections can be open at a time, and how many mechanisms can be added. */
#define UMBRELNIC_MOST_CONNECTIONS 64
#define UMBRELNIC_MOST_MECHANISMS 8

/* ---- refusals */

#define UMBRELNIC_SHORT_BUFFER 1    /* a lent buffer is shorter than UMBRELNIC_.._OCTETS says */
#define UMBRELNIC_NO_CONNECTION 2   /* no open connection has this number */
#define UMBRELNIC_WAITING 3         /* a line came while its connection waits on a ticket: hand in the verdict, or close */
#define UMBRELNIC_NO_TICKET 4       /* no open connection waits on this ticket */
#define UMBRELNIC_NOT_LISTED 5      /* no such profile or verdict, data that the verdict cannot have, or a yes-or-no that is not 0 or 1 */
#define UMBRELNIC_FULL 6            /* 64 connections are open: close one */
#define UMBRELNIC_EXHAUSTED 7       /* the next connection's number, or the next ticket, is 2^64-1, which is never issued */
#define UMBRELNIC_BAD_NAME 8        /* a mechanism's name is not 1 to 20 of A-Z, 0-9, "-", "_" */
#define UMBRELNIC_NAME_PRESENT 9    /* a mechanism with this name was added already */
#define UMBRELNIC_TABLE_FULL 10     /* eight mechanisms were added already */
#define UMBRELNIC_SEALED 11         /* mechanisms are added before the first connection is opened */
#define UMBRELNIC_NOT_TAKEN 20      /* these octets are not those of any desk, or not UMBRELNIC_IMAGE_OCTETS many */

/* ---- profiles */

#define UMBRELNIC_SMTP 0
#define UMBRELNIC_POP3 1

/* ---- verdicts, with the data that each has */

#define UMBRELNIC_CHALLENGE 0    /* 0 to 9,210 octets: what the client is to be sent, before it is encoded */
#define UMBRELNIC_SUCCESS 1      /* 1 to 64 octets of 0x21 to 0x7E: the name that the connection signs in with */
#define UMBRELNIC_REJECTED 2     /* no data */
#define UMBRELNIC_TEMPORARY 3    /* no data: the password service cannot tell just now */
#define UMBRELNIC_TRANSITION 4   /* no data: the user must go through a password transition */
#define UMBRELNIC_WEAK 5         /* no data: the mechanism is too weak for this user */

/* ---- kinds of answers to a line */

#define UMBRELNIC_FORWARD 0
#define UMBRELNIC_QUERY 1
#define UMBRELNIC_REPLY 2

/* ---- identities to relay, with a line that is forwarded */

#define UMBRELNIC_NO_MAIL 0        /* the line is no MAIL command */
#define UMBRELNIC_NULL 1           /* MAIL: relay AUTH=<> */
#define UMBRELNIC_ABSENT 2         /* MAIL: relay none; the sender is who is signed in */
#define UMBRELNIC_ADDRESS 3        /* MAIL: relay the address in the answer buffer */

/* ---- what calls give; no call gives another field than its own */

struct umbrelnic_opened {
    uint64_t refusal;
    uint64_t connection; /* the connection's number */
};

struct umbrelnic_line_answer {
    uint64_t refusal;
    uint64_t kind;     /* UMBRELNIC_FORWARD, UMBRELNIC_QUERY or UMBRELNIC_REPLY */
    uint64_t ticket;   /* of a query */
    uint64_t starts;   /* of a query: 1 where it only starts an exchange, with no response of the client's */
    uint64_t length;   /* of a query: the response's octets in the answer buffer; of a reply: the octets in the reply buffer;
                          of UMBRELNIC_ADDRESS: the address's octets in the answer buffer */
    uint64_t identity; /* of a forward: UMBRELNIC_NO_MAIL, UMBRELNIC_NULL, UMBRELNIC_ABSENT or UMBRELNIC_ADDRESS */
};

struct umbrelnic_said {
    uint64_t refusal;
    uint64_t length; /* of the reply, in the reply buffer */
};

struct umbrelnic_identity {
    uint64_t refusal;
    uint64_t signed_in; /* 1 or 0 */
    uint64_t length;    /* of the name, in the name buffer; 0 where nobody is signed in */
};

/* ---- calls
 *
 * Connection numbers and tickets are issued in turn from the two first numbers, each once; 0 is a number like any other, and 2^64-1 is
 * never issued. A slot that was freed is taken again, but its numbers are not.
 */

/* How many octets an image has: UMBRELNIC_IMAGE_OCTETS. */
uint64_t umbrelnic_image_octets(void);

/* Makes a desk with no mechanism and no connection, whatever the image held before. Refused: 20 (by its length alone). */
uint64_t umbrelnic_make(uint8_t *image, size_t image_octets, uint64_t connection, uint64_t ticket);

/* Adds a mechanism: its name, in capitals; whether the client speaks first; whether it is offered on protected connections only. Clients
   may write the name with small letters too. Refused: 20, 5, 11, 8, 9, 10. */
uint64_t umbrelnic_add(uint8_t *image, size_t image_octets, const uint8_t *name, size_t name_octets, uint64_t client_first,
                       uint64_t needs_protection);

/* Opens a connection in the lowest free slot. `protected_` says whether TLS protects it. Refused: 20, 5, 6, 7. */
struct umbrelnic_opened umbrelnic_open(uint8_t *image, size_t image_octets, uint64_t profile, uint64_t protected_);

/* Reads a line of a client's, without its CRLF, of any length. A query or an address is written to the answer buffer, a reply with its CRLF to
   the reply buffer, each from its start on; the octets behind stay as they were, and so does the whole of the other buffer.
   Refused: 1, 20, 2, 3, 7 (only where the line would be a query). */
struct umbrelnic_line_answer umbrelnic_line(uint8_t *image, size_t image_octets, uint64_t connection, const uint8_t *line,
                                            size_t line_octets, uint8_t *reply, size_t reply_octets, uint8_t *answer,
                                            size_t answer_octets);

/* Turns a verdict into a reply with its CRLF, for the connection that waits on the ticket, and writes it to the reply buffer. The ticket is
   used up by it. An answer buffer is lent too, as to umbrelnic_line, and is never written.
   Refused: 1, 20, 4, 5. */
struct umbrelnic_said umbrelnic_verdict(uint8_t *image, size_t image_octets, uint64_t ticket, uint64_t verdict, const uint8_t *data,
                                        size_t data_octets, uint8_t *reply, size_t reply_octets, uint8_t *answer,
                                        size_t answer_octets);

/* Tells that a connection's mail transaction is over: after the message, or where the mail server refused the MAIL. Where none is open nothing
   changes. Refused: 20, 2. */
uint64_t umbrelnic_mail_ended(uint8_t *image, size_t image_octets, uint64_t connection);

/* Says whether somebody is signed in, and writes the name to the name buffer, with no NUL behind it. Refused: 1, 20, 2. */
struct umbrelnic_identity umbrelnic_who(const uint8_t *image, size_t image_octets, uint64_t connection, uint8_t *name,
                                        size_t name_octets);

/* Frees a connection's slot and voids the ticket that it waits on: a verdict that comes later is refused with 4. Refused: 20, 2. */
uint64_t umbrelnic_close(uint8_t *image, size_t image_octets, uint64_t connection);

#ifdef __cplusplus
}
#endif

#endif
