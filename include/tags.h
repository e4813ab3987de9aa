/* The tag memory and its archive image, for a host simulator in C.
 *
 * Link with libhost.a. The functions only read what they are lent and keep nothing. A
 * pointer must not be null and must lend `length` bytes; where `length` is 0 nothing is
 * read through it.
 *
 * A tag memory of n leaves (1 to 262144) is 64 * (n + n/512 rounded up) bytes: the
 * leaves, 64 bytes each, then the map blocks, 64 bytes each. A group is the 8 tags of one
 * 64-byte data block: 32 bits, tag j in bits 4j to 4j+3. There are 16 n groups.
 */
#ifndef TAGS_H
#define TAGS_H

#include <stddef.h>
#include <stdint.h>

#ifdef __cplusplus
extern "C" {
#endif

/* A call that gives a group or a number of leaves gives it, below TAG_REFUSED, or
 * TAG_REFUSED plus the refusal. */
#define TAG_REFUSED UINT64_C(4294967296)

/* tag_first_tagged and tag_first_tagged_as_true: no group is tagged. */
#define TAG_NONE UINT64_C(8589934592)

/* The refusals, by their numbers in the paper. */
#define TAG_LIMITS 1       /* n is 0 or above 262144 */
#define TAG_LENGTH 2       /* length is not the length of a memory of n leaves */
#define TAG_UNTRUE 3       /* the memory is not true */
#define TAG_GROUP 6        /* group is 16 n or more; a is above b, or b above 16 n */
#define TAG_IMAGE_CHECK 10 /* image length 0 or not a multiple of 512, or a wrong check */
#define TAG_IMAGE_RULE 11  /* checks right, another rule of the image is broken */

/* Plain reading of one group: 0 if the map bit of its leaf is 0, whatever bytes the leaf
 * has; else the leaf's 4 bytes for it. Refused, the first that applies:
 *   TAG_REFUSED + 1   n is 0 or above 262144
 *   TAG_REFUSED + 2   length is not 64 * (n + n/512 rounded up)
 *   TAG_REFUSED + 6   group is 16 n or more
 * The memory need not be true: any bytes of the right length are read.
 */
uint64_t tag_plain_read(uint64_t n, const uint8_t *memory, size_t length, uint64_t group);

/* The test of an archive image of version 1 or 2, as its head says: 0 if it is accepted,
 * that is, if it is the image of some true memory; else
 *   10   length is 0 or not a multiple of 512, or a block's check is wrong: both sums
 *        modulo 65535 in version 1, modulo 65536 where the head has any other version
 *   11   all checks are right and another rule of the image is broken
 */
uint64_t tag_image_test(const uint8_t *image, size_t length);

/* Is anything tagged from group a up to but not including group b? Of a true memory, as a
 * drain leaves it: every bit 1 stands over a leaf with some byte not zero, and all bits for
 * leaves n and up are 0. Refused, the first that applies:
 *   TAG_REFUSED + 1   n is 0 or above 262144
 *   TAG_REFUSED + 2   length is not 64 * (n + n/512 rounded up)
 *   TAG_REFUSED + 3   the memory is not true
 *   TAG_REFUSED + 6   a is above b, or b above 16 n
 * tag_first_tagged gives the lowest group that tag_plain_read would not read as 0, or
 * TAG_NONE. tag_tagged_leaves gives the number of leaves with some tag set, from a's leaf
 * to that of group b - 1, both counted whole; 0 where a is b.
 */
uint64_t tag_first_tagged(uint64_t n, const uint8_t *memory, size_t length, uint64_t a, uint64_t b);
uint64_t tag_tagged_leaves(uint64_t n, const uint8_t *memory, size_t length, uint64_t a, uint64_t b);

/* The same with the memory taken as true, for calls again and again on one memory: the test
 * passes over all of it each time. Never TAG_REFUSED + 3. Of a true memory the answers are
 * those above. Of any bytes: the lowest group that tag_plain_read would not read as 0, and
 * the number of leaves with bit 1.
 */
uint64_t tag_first_tagged_as_true(uint64_t n, const uint8_t *memory, size_t length, uint64_t a, uint64_t b);
uint64_t tag_tagged_leaves_as_true(uint64_t n, const uint8_t *memory, size_t length, uint64_t a, uint64_t b);

#ifdef __cplusplus
}
#endif

#endif
