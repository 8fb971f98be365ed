/* Every call made twice, on what is tested and on the model, with equal images and equal buffers: results, images and buffers must
   be equal after it. The buffers lie at a page that cannot be touched, so that whoever reads or writes past one is stopped. */
#ifndef BOTH_H
#define BOTH_H
#include "check.h"

enum what { MAKE, ADD, OPEN, LINE, VERDICT, MAIL_ENDED, WHO, CLOSE, CALLS };

/* A call, with what it is lent. Its numbers in their order: make's two; add's and open's two; a connection or ticket, and verdict's
   second. */
struct call {
    enum what what;
    uint64_t one;
    uint64_t other;
    struct text text; /* a mechanism's name, a line or a verdict's data */
    size_t image_octets;
    size_t reply_octets;
    size_t answer_octets;
    size_t name_octets;
};

/* Such a call with buffers of the usual sizes. */
struct call usual(enum what what, uint64_t one, uint64_t other, struct text text);

/* What came back, as numbers in the order of the call's structure; those that it has not are 0. */
struct result {
    uint64_t refusal;
    uint64_t numbers[5];
};
/* of a line */
enum { KIND, OF_TICKET, STARTS, LENGTH, IDENTITY };

/* The image that both are lent, and that the call leaves if it is of the right length. */
extern uint8_t both_image[UMBRELNIC_IMAGE_OCTETS];

/* The last reply, for counting. */
extern struct text both_said;

/* Gives what is tested's result. A difference is printed, and counted. */
struct result both(const struct call *call);
extern size_t both_calls;
extern size_t both_differences;
#endif
