/* Why, in words: what tools/why.c finds in the bytes of an image. */
#ifndef WHY_H
#define WHY_H

#include <stddef.h>
#include <stdint.h>

/* An image is blocks of so many bytes. */
enum { BLOCK = 512 };

/* The number of so many bytes, low byte first. */
uint32_t number(const uint8_t *bytes, int width);

/* The check of a block is right by the rule of this version. */
int check_right(uint32_t version, const uint8_t *block);

/* The first rule of the head that is broken, m apart; NULL if none. */
const char *head_broken(const uint8_t *head);

/* Prints, of an image of so many blocks whose checks are right, the first rule that is broken, and where. */
void print_broken(const uint8_t *image, size_t blocks);

/* Prints what a salvage listed: each block that was not used, and each leaf that was left out. Gives the number of leaves kept. */
uint64_t print_list(const uint8_t *image, size_t blocks, const uint64_t *list, uint64_t listed);

#endif
