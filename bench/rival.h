/* The rival: the library's algorithm written by hand in C. Same contracts, same answers; the plan goes in by pointer. */
#ifndef RIVAL_H
#define RIVAL_H
#include "fumizhaki.h"

uint8_t rival_recover(const fumizhaki_plan *plan, uint8_t *block, size_t block_length, const uint8_t *marks, size_t marks_length,
                      uint16_t *witness, size_t witness_length, size_t *count);
uint8_t rival_encode(const fumizhaki_plan *plan, const uint8_t *message, size_t message_length, uint8_t *block, size_t block_length);
uint8_t rival_message_of(const fumizhaki_plan *plan, const uint8_t *block, size_t block_length, uint8_t *message, size_t message_length);

#endif
