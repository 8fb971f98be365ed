/* The desk once more, in C, written from document 01 and docs/IMAGE.md alone: the library is compared with it in tests and
   benchmarks. No part of what is shipped. Each call is that of umbrelnic.h, on an image of the same layout. */
#ifndef MODEL_H
#define MODEL_H
#include "../include/umbrelnic.h"

uint64_t model_image_octets(void);

uint64_t model_make(uint8_t *image, size_t image_octets, uint64_t connection, uint64_t ticket);

uint64_t model_add(uint8_t *image, size_t image_octets, const uint8_t *name, size_t name_octets, uint64_t client_first,
                   uint64_t needs_protection);

struct umbrelnic_opened model_open(uint8_t *image, size_t image_octets, uint64_t profile, uint64_t protected_);

struct umbrelnic_line_answer model_line(uint8_t *image, size_t image_octets, uint64_t connection, const uint8_t *line,
                                        size_t line_octets, uint8_t *reply, size_t reply_octets, uint8_t *answer,
                                        size_t answer_octets);

struct umbrelnic_said model_verdict(uint8_t *image, size_t image_octets, uint64_t ticket, uint64_t verdict, const uint8_t *data,
                                    size_t data_octets, uint8_t *reply, size_t reply_octets, uint8_t *answer,
                                    size_t answer_octets);

uint64_t model_mail_ended(uint8_t *image, size_t image_octets, uint64_t connection);

struct umbrelnic_identity model_who(const uint8_t *image, size_t image_octets, uint64_t connection, uint8_t *name,
                                    size_t name_octets);

uint64_t model_close(uint8_t *image, size_t image_octets, uint64_t connection);
#endif
