/* Calls of include/tags.h from C, with right and wrong numbers and lengths.
 * Each expected value is worked out by hand from the paper. Prints each check that fails,
 * then their number; the exit status is 0 only if all hold. */

#include <stdio.h>
#include <stdlib.h>
#include <string.h>

#include "tags.h"

#define MOST 262144u
#define MOST_LENGTH 16809984u

static unsigned checks, failures;

static void same(const char *what, uint64_t got, uint64_t expected)
{
    checks++;
    if (got != expected) {
        failures++;
        printf("%s: got %llu, expected %llu\n", what, (unsigned long long)got,
               (unsigned long long)expected);
    }
}

#define SAME(call, expected) same(#call, call, expected)

static uint64_t refused(uint64_t number)
{
    return TAG_REFUSED + number;
}

/* A memory of its own for each n, all bytes 0xee, the map zero. */
static uint8_t *blank(size_t n, size_t length)
{
    uint8_t *memory = malloc(length);
    if (memory == NULL) {
        puts("host.c: no memory");
        exit(2);
    }
    memset(memory, 0xee, length);
    memset(memory + 64 * n, 0, length - 64 * n);
    return memory;
}

static void one_leaf(void)
{
    uint8_t *m = blank(1, 128);
    SAME(tag_plain_read(1, m, 128, 0), 0); /* stale bytes under bit 0 */
    SAME(tag_plain_read(1, m, 128, 15), 0);
    m[64] = 0xfe; /* the bits of leaves that do not exist */
    SAME(tag_plain_read(1, m, 128, 0), 0);
    m[64] = 0x80; /* bit 7 is not bit 0 */
    SAME(tag_plain_read(1, m, 128, 0), 0);
    m[64] = 0x01;
    SAME(tag_plain_read(1, m, 128, 0), 0xeeeeeeeeu);
    m[0] = 0x0a, m[1] = 0x0b, m[2] = 0x0c, m[3] = 0x0d; /* low byte first */
    SAME(tag_plain_read(1, m, 128, 0), 0x0d0c0b0au);
    m[60] = 1, m[61] = 2, m[62] = 3, m[63] = 0x84;
    SAME(tag_plain_read(1, m, 128, 15), 0x84030201u);
    memset(m, 0xff, 64);
    SAME(tag_plain_read(1, m, 128, 7), 0xffffffffu); /* the largest is no refusal */
    memset(m, 0, 64); /* not a true memory: read all the same */
    SAME(tag_plain_read(1, m, 128, 7), 0);

    SAME(tag_plain_read(1, m, 128, 16), refused(TAG_GROUP));
    SAME(tag_plain_read(1, m, 128, UINT64_MAX), refused(TAG_GROUP));
    SAME(tag_plain_read(1, m, 128, TAG_REFUSED), refused(TAG_GROUP));
    SAME(tag_plain_read(1, m, 127, 0), refused(TAG_LENGTH));
    SAME(tag_plain_read(1, m, 64, 0), refused(TAG_LENGTH));
    SAME(tag_plain_read(1, m, 0, 0), refused(TAG_LENGTH));
    SAME(tag_plain_read(0, m, 128, 0), refused(TAG_LIMITS));
    SAME(tag_plain_read(0, m, 0, 0), refused(TAG_LIMITS));
    SAME(tag_plain_read(2, m, 128, 0), refused(TAG_LENGTH));
    SAME(tag_plain_read(MOST, m, 128, 0), refused(TAG_LENGTH));
    SAME(tag_plain_read(MOST + 1, m, 128, 0), refused(TAG_LIMITS));
    SAME(tag_plain_read(TAG_REFUSED + 1, m, 128, 0), refused(TAG_LIMITS));
    SAME(tag_plain_read(UINT64_C(1) << 58, m, 0, 0), refused(TAG_LIMITS));
    SAME(tag_plain_read(UINT64_MAX, m, 128, 0), refused(TAG_LIMITS));
    /* The order 1, 2, 6 where several apply. */
    SAME(tag_plain_read(0, m, 1, UINT64_MAX), refused(TAG_LIMITS));
    SAME(tag_plain_read(1, m, 1, UINT64_MAX), refused(TAG_LENGTH));
    free(m);
}

/* One full map block, and one leaf more. */
static void map_ends(void)
{
    uint8_t *m = blank(512, 32832);
    m[64 * 511] = 5;
    SAME(tag_plain_read(512, m, 32832, 16 * 511), 0);
    m[64 * 512 + 63] = 0x80; /* leaf 511: byte 63, bit 7 */
    SAME(tag_plain_read(512, m, 32832, 16 * 511), 0xeeeeee05u);
    SAME(tag_plain_read(512, m, 32832, 16 * 510), 0);
    SAME(tag_plain_read(512, m, 32832, 8191), 0xeeeeeeeeu);
    SAME(tag_plain_read(512, m, 32832, 8192), refused(TAG_GROUP));
    SAME(tag_plain_read(512, m, 32831, 0), refused(TAG_LENGTH));
    SAME(tag_plain_read(513, m, 32832, 0), refused(TAG_LENGTH));
    free(m);

    m = blank(513, 32960);
    m[64 * 512 + 60] = 9;
    m[64 * 513] = 0x01; /* leaf 0 */
    SAME(tag_plain_read(513, m, 32960, 0), 0xeeeeeeeeu);
    SAME(tag_plain_read(513, m, 32960, 16 * 512 + 15), 0);
    m[64 * 513] = 0;
    m[64 * 514] = 0x01; /* leaf 512: the second map block, byte 0, bit 0 */
    SAME(tag_plain_read(513, m, 32960, 0), 0);
    SAME(tag_plain_read(513, m, 32960, 16 * 512 + 15), 0xeeeeee09u);
    SAME(tag_plain_read(513, m, 32960, 16 * 513), refused(TAG_GROUP));
    SAME(tag_plain_read(513, m, 32896, 0), refused(TAG_LENGTH));
    SAME(tag_plain_read(512, m, 32960, 0), refused(TAG_LENGTH));
    free(m);
}

static void largest(void)
{
    const size_t length = MOST_LENGTH;
    uint8_t *m = blank(MOST, length);
    SAME(tag_plain_read(MOST, m, length, 0), 0);
    SAME(tag_plain_read(MOST, m, length, 16 * (uint64_t)MOST - 1), 0);
    m[length - 1] = 0x80; /* the last leaf's bit */
    m[64 * (size_t)MOST - 1] = 0x7f;
    SAME(tag_plain_read(MOST, m, length, 16 * (uint64_t)MOST - 1), 0x7feeeeeeu);
    SAME(tag_plain_read(MOST, m, length, 16 * (uint64_t)MOST - 17), 0);
    SAME(tag_plain_read(MOST, m, length, 16 * (uint64_t)MOST), refused(TAG_GROUP));
    SAME(tag_plain_read(MOST, m, length - 1, 0), refused(TAG_LENGTH));
    SAME(tag_plain_read(MOST - 1, m, length - 64, 0), 0);
    SAME(tag_plain_read(MOST - 1, m, length, 0), refused(TAG_LENGTH));
    SAME(tag_plain_read(MOST + 1, m, length, 0), refused(TAG_LIMITS));
    free(m);
}

/* Nine leaves, so two map bytes: groups 5 (leaf 0) and 127 (leaf 7) are tagged, and 129 (leaf 8); leaf 3 is stale. */
static void between(void)
{
    enum { LENGTH = 64 * 10 };
    uint8_t *m = blank(9, LENGTH);
    memset(m, 0, 64 * 9);
    memset(m + 64 * 3, 0xee, 64);
    m[4 * 5] = 1, m[4 * 127 + 3] = 0x80, m[4 * 129 + 1] = 7;
    m[64 * 9] = 0x81, m[64 * 9 + 1] = 0x01;

    SAME(tag_first_tagged(9, m, LENGTH, 0, 144), 5);
    SAME(tag_first_tagged(9, m, LENGTH, 5, 144), 5);   /* A itself */
    SAME(tag_first_tagged(9, m, LENGTH, 5, 5), TAG_NONE);
    SAME(tag_first_tagged(9, m, LENGTH, 0, 5), TAG_NONE); /* B itself is not asked */
    SAME(tag_first_tagged(9, m, LENGTH, 0, 6), 5);
    SAME(tag_first_tagged(9, m, LENGTH, 6, 144), 127); /* over the stale leaf */
    SAME(tag_first_tagged(9, m, LENGTH, 128, 144), 129);
    SAME(tag_first_tagged(9, m, LENGTH, 130, 144), TAG_NONE);
    SAME(tag_tagged_leaves(9, m, LENGTH, 0, 144), 3);
    SAME(tag_tagged_leaves(9, m, LENGTH, 15, 113), 2); /* leaves 0 and 7 */
    SAME(tag_tagged_leaves(9, m, LENGTH, 16, 112), 0); /* leaves 1 to 6 */
    SAME(tag_tagged_leaves(9, m, LENGTH, 127, 129), 2); /* leaves 7 and 8 */
    SAME(tag_tagged_leaves(9, m, LENGTH, 0, 1), 1);
    SAME(tag_tagged_leaves(9, m, LENGTH, 0, 0), 0);
    SAME(tag_tagged_leaves(9, m, LENGTH, 144, 144), 0);

    SAME(tag_first_tagged(0, m, LENGTH, 1, 0), refused(TAG_LIMITS));
    SAME(tag_first_tagged(9, m, LENGTH - 1, 1, 0), refused(TAG_LENGTH));
    SAME(tag_first_tagged(9, m, LENGTH, 1, 0), refused(TAG_GROUP));
    SAME(tag_first_tagged(9, m, LENGTH, 0, 145), refused(TAG_GROUP));
    SAME(tag_tagged_leaves(9, m, LENGTH, 145, 145), refused(TAG_GROUP));
    m[64 * 9 + 1] = 0x03; /* the bit of a leaf that does not exist */
    SAME(tag_first_tagged(9, m, LENGTH, 1, 0), refused(TAG_UNTRUE));
    SAME(tag_tagged_leaves(9, m, LENGTH, 0, 144), refused(TAG_UNTRUE));
    SAME(tag_first_tagged_as_true(9, m, LENGTH, 0, 144), 5);
    SAME(tag_tagged_leaves_as_true(9, m, LENGTH, 0, 144), 3);
    SAME(tag_first_tagged_as_true(9, m, LENGTH, 1, 0), refused(TAG_GROUP));
    free(m);
}

/* Make the check of one block right: modulo 65535 in version 1, else modulo 65536. */
static void seal(unsigned version, uint8_t *block)
{
    const uint32_t modulus = version == 1 ? 65535 : 65536;
    uint32_t a = 1, b = 0;
    for (int at = 0; at < 508; at += 2) {
        a = (a + block[at] + 256u * block[at + 1]) % modulus;
        b = (b + a) % modulus;
    }
    block[508] = a & 255, block[509] = a >> 8;
    block[510] = b & 255, block[511] = b >> 8;
}

/* The test of an image after byte `at` is given this value and its block sealed again. */
static uint64_t changed(const uint8_t *image, size_t length, size_t at, uint8_t value)
{
    uint8_t copy[1024];
    memcpy(copy, image, length);
    copy[at] = value;
    seal(copy[6] + 256u * copy[7], copy + at / 512 * 512);
    return tag_image_test(copy, length);
}

static void images(void)
{
    /* The heads for n = 2, m = 0, of version 1 and of version 2, their checks as the papers have them. */
    uint8_t image[1536] = {0, 0, 0, 0, 1, 0, 1, 0, 2};
    image[508] = 0x05, image[509] = 0x00, image[510] = 0xe9, image[511] = 0x04;
    SAME(tag_image_test(image, 512), 0);
    image[6] = 2; /* with the check of the old rule */
    SAME(tag_image_test(image, 512), TAG_IMAGE_CHECK);
    image[508] = 0x06, image[509] = 0x00, image[510] = 0xe4, image[511] = 0x05;
    SAME(tag_image_test(image, 512), 0);
    image[6] = 1; /* with the check of the new rule */
    SAME(tag_image_test(image, 512), TAG_IMAGE_CHECK);
    image[6] = 2;
    SAME(tag_image_test(image, 0), TAG_IMAGE_CHECK);
    SAME(tag_image_test(image, 511), TAG_IMAGE_CHECK);
    SAME(tag_image_test(image, 513), TAG_IMAGE_CHECK);
    SAME(tag_image_test(image, 1024), TAG_IMAGE_CHECK); /* a block of zeros has a wrong check */
    image[510] ^= 1;
    SAME(tag_image_test(image, 512), TAG_IMAGE_CHECK);
    image[510] ^= 1;
    SAME(changed(image, 512, 8, 1), 0);
    SAME(changed(image, 512, 8, 0), TAG_IMAGE_RULE);  /* n = 0 */
    SAME(changed(image, 512, 10, 4), TAG_IMAGE_RULE); /* n = 262146 */
    SAME(changed(image, 512, 11, 1), TAG_IMAGE_RULE);
    SAME(changed(image, 512, 0, 1), TAG_IMAGE_RULE);   /* number */
    SAME(changed(image, 512, 4, 2), TAG_IMAGE_RULE);   /* kind */
    SAME(changed(image, 512, 6, 1), 0);                /* version */
    SAME(changed(image, 512, 6, 0), TAG_IMAGE_RULE);
    SAME(changed(image, 512, 6, 3), TAG_IMAGE_RULE);
    SAME(changed(image, 512, 7, 1), TAG_IMAGE_RULE);
    SAME(changed(image, 512, 12, 1), TAG_IMAGE_RULE);  /* m */
    SAME(changed(image, 512, 16, 1), TAG_IMAGE_RULE);  /* zeros after */
    SAME(changed(image, 512, 507, 1), TAG_IMAGE_RULE);

    /* The same with leaf 1 recorded, its last byte 3. */
    image[12] = 1;
    seal(2, image);
    uint8_t *block = image + 512;
    block[0] = 1, block[4] = 2, block[6] = 1, block[8] = 1, block[75] = 3;
    seal(2, block);
    SAME(tag_image_test(image, 1024), 0);
    SAME(tag_image_test(image, 512), TAG_IMAGE_RULE);  /* m is 1 and there is no record */
    SAME(tag_image_test(image, 1023), TAG_IMAGE_CHECK);
    SAME(tag_image_test(block, 512), TAG_IMAGE_CHECK); /* its count is read as version 1, the old rule */
    SAME(changed(image, 1024, 512 + 8, 0), 0);               /* leaf 0 */
    SAME(changed(image, 1024, 512 + 8, 2), TAG_IMAGE_RULE);  /* leaf 2 of 2 */
    SAME(changed(image, 1024, 512 + 75, 0), TAG_IMAGE_RULE); /* an empty record */
    SAME(changed(image, 1024, 512 + 76, 1), TAG_IMAGE_RULE); /* an unused byte */
    SAME(changed(image, 1024, 512 + 507, 1), TAG_IMAGE_RULE);
    SAME(changed(image, 1024, 512 + 6, 0), TAG_IMAGE_RULE); /* counts */
    SAME(changed(image, 1024, 512 + 6, 2), TAG_IMAGE_RULE);
    SAME(changed(image, 1024, 512 + 6, 8), TAG_IMAGE_RULE);
    SAME(changed(image, 1024, 512 + 7, 255), TAG_IMAGE_RULE);
    SAME(changed(image, 1024, 512 + 4, 1), TAG_IMAGE_RULE);
    SAME(changed(image, 1024, 512 + 0, 2), TAG_IMAGE_RULE);
    SAME(changed(image, 1024, 12, 2), TAG_IMAGE_RULE);
    SAME(changed(image, 1024, 8, 1), TAG_IMAGE_RULE); /* leaf 1 of 1 */
}

int main(void)
{
    one_leaf();
    map_ends();
    largest();
    between();
    images();
    printf("host.c: %u checks, %u failed\n", checks, failures);
    return failures != 0;
}
