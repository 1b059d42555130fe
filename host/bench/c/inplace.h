/*
 * The same functions as the archive's, written by hand in C: the same slices and layout, the same checks, the same answers. The benchmark holds
 * the archive against them. PEER names the compiler, so that one program can hold what several compilers make of this file.
 */
#ifndef INPLACE_H
#define INPLACE_H

#include "pikurandal.h"

#define JOIN(a, b) a##_##b
#define NAMED(a, b) JOIN(a, b)
#define PEER_FN(name) NAMED(PEER, name)

struct pik_answer PEER_FN(data)(uint64_t *keys, size_t keys_length, uint64_t *words, size_t words_length, uint32_t *handles,
                                size_t handles_length, uint8_t *marks, size_t marks_length, uint32_t *up, size_t up_length, uint32_t *returned,
                                size_t returned_length, uint16_t *nack, size_t nack_length, const uint8_t destination[6],
                                const uint8_t source[6], uint8_t priority, uint64_t time, uint16_t number, uint32_t handle);

struct pik_answer PEER_FN(reminder)(const uint64_t *keys, size_t keys_length, uint64_t *words, size_t words_length, uint32_t *handles,
                                    size_t handles_length, uint8_t *marks, size_t marks_length, uint32_t *up, size_t up_length,
                                    uint32_t *returned, size_t returned_length, uint16_t *nack, size_t nack_length,
                                    const uint8_t destination[6], const uint8_t source[6], uint8_t priority, uint64_t time, uint16_t number);

struct pik_answer PEER_FN(tick)(const uint64_t *keys, size_t keys_length, uint64_t *words, size_t words_length, uint32_t *handles,
                                size_t handles_length, uint8_t *marks, size_t marks_length, uint32_t *up, size_t up_length, uint32_t *returned,
                                size_t returned_length, uint16_t *nack, size_t nack_length, const uint8_t destination[6],
                                const uint8_t source[6], uint8_t priority, uint64_t time);

struct pik_answer PEER_FN(close)(uint64_t *keys, size_t keys_length, uint64_t *words, size_t words_length, uint32_t *handles,
                                 size_t handles_length, uint8_t *marks, size_t marks_length, uint32_t *up, size_t up_length,
                                 uint32_t *returned, size_t returned_length, uint16_t *nack, size_t nack_length, const uint8_t destination[6],
                                 const uint8_t source[6], uint8_t priority, uint64_t time);

struct pik_station_answer PEER_FN(station_receive)(struct pik_station station, uint8_t opcode, struct pik_frame frame);

struct pik_reading PEER_FN(rate_read)(const uint8_t *frame, size_t frame_length);

struct pik_written PEER_FN(rate_write)(uint8_t *out, size_t out_length, struct pik_request request, const uint8_t *addresses,
                                       size_t addresses_length);

#endif
