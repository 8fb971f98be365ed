/* The calls of umbrelnic.h as a table, so that the same tests run on the library and on the model. */
#ifndef FACE_H
#define FACE_H
#include "../include/umbrelnic.h"

struct face {
    const char *name;
    uint64_t (*image_octets)(void);
    uint64_t (*make)(uint8_t *image, size_t image_octets, uint64_t connection, uint64_t ticket);
    uint64_t (*add)(uint8_t *image, size_t image_octets, const uint8_t *name, size_t name_octets, uint64_t client_first,
                    uint64_t needs_protection);
    struct umbrelnic_opened (*open)(uint8_t *image, size_t image_octets, uint64_t profile, uint64_t protected_);
    struct umbrelnic_line_answer (*line)(uint8_t *image, size_t image_octets, uint64_t connection, const uint8_t *line,
                                         size_t line_octets, uint8_t *reply, size_t reply_octets, uint8_t *answer,
                                         size_t answer_octets);
    struct umbrelnic_said (*verdict)(uint8_t *image, size_t image_octets, uint64_t ticket, uint64_t verdict, const uint8_t *data,
                                     size_t data_octets, uint8_t *reply, size_t reply_octets, uint8_t *answer,
                                     size_t answer_octets);
    uint64_t (*mail_ended)(uint8_t *image, size_t image_octets, uint64_t connection);
    struct umbrelnic_identity (*who)(const uint8_t *image, size_t image_octets, uint64_t connection, uint8_t *name,
                                     size_t name_octets);
    uint64_t (*close)(uint8_t *image, size_t image_octets, uint64_t connection);
};

/* What the tests run on: the library, or with -DON_MODEL the model. */
extern const struct face tested;
extern const struct face model;
#endif
