/* Why a file is no image, and why a block or a leaf was left out, in words: tested, not proved. */

#include <stdio.h>

#include "why.h"

enum { CHECK = 508, RECORDS = 8, RECORD = 68, FULL = 7 };

uint32_t number(const uint8_t *bytes, int width)
{
    uint32_t v = 0;
    while (width-- > 0)
        v = v << 8 | bytes[width];
    return v;
}

static int zero(const uint8_t *bytes, size_t count)
{
    for (size_t i = 0; i < count; i++)
        if (bytes[i] != 0)
            return 0;
    return 1;
}

int check_right(uint32_t version, const uint8_t *block)
{
    uint64_t modulus = version == 1 ? 65535 : 65536, a = 1, b = 0;
    for (int i = 0; i < CHECK; i += 2) {
        a += (uint32_t)(block[i] | block[i + 1] << 8);
        b += a;
    }
    return number(block + CHECK, 2) == a % modulus && number(block + CHECK + 2, 2) == b % modulus;
}

/* The first rule of the head that is broken, m apart; NULL if none. */
const char *head_broken(const uint8_t *head)
{
    uint32_t version = number(head + 6, 2), n = number(head + 8, 4);
    if (number(head, 4) != 0)
        return "its number is not 0";
    if (number(head + 4, 2) != 1)
        return "its kind is not 1";
    if (version != 1 && version != 2)
        return "its version is neither 1 nor 2";
    if (n < 1 || n > 262144)
        return "its n is not from 1 to 262144";
    if (!zero(head + 16, CHECK - 16))
        return "its unused bytes are not zero";
    return NULL;
}

/* The first rule of a record block that is broken, its check and its records apart; NULL if none. */
static const char *block_broken(const uint8_t *block, size_t place, int last)
{
    uint32_t count = number(block + 6, 2);
    if (number(block, 4) != place)
        return "its number is not its place";
    if (number(block + 4, 2) != 2)
        return "its kind is not 2";
    if (last ? count < 1 || count > FULL : count != FULL)
        return last ? "its count is not from 1 to 7" : "its count is not 7";
    if (!zero(block + RECORDS + RECORD * count, CHECK - RECORDS - RECORD * count))
        return "its unused bytes are not zero";
    return NULL;
}

/* The first rule that a record breaks after those that are kept, whose last has the leaf `above` - 1; NULL if none. */
static const char *record_broken(const uint8_t *record, uint32_t n, uint64_t above)
{
    uint32_t leaf = number(record, 4);
    if (zero(record + 4, RECORD - 4))
        return "empty";
    if (leaf >= n)
        return "its number is not below n";
    if (leaf < above)
        return "its number is not above the last one kept";
    return NULL;
}

/* Of an image whose checks are right: the first rule that is broken, and where. */
void print_broken(const uint8_t *image, size_t blocks)
{
    uint32_t n = number(image + 8, 4);
    uint64_t above = 0, records = 0;
    const char *why = head_broken(image);
    if (why != NULL) {
        printf("the head: %s\n", why);
        return;
    }
    for (size_t j = 1; j < blocks; j++) {
        const uint8_t *block = image + BLOCK * j;
        uint32_t count = number(block + 6, 2);
        why = block_broken(block, j, j + 1 == blocks);
        if (why != NULL) {
            printf("block %zu: %s\n", j, why);
            return;
        }
        for (uint32_t i = 0; i < count; i++) {
            const uint8_t *record = block + RECORDS + RECORD * i;
            why = record_broken(record, n, above);
            if (why != NULL) {
                printf("leaf %u in block %zu: %s\n", number(record, 4), j, why);
                return;
            }
            above = (uint64_t)number(record, 4) + 1;
        }
        records += count;
    }
    printf("the head: its m is %u, and there are %llu records\n", number(image + 12, 4), (unsigned long long)records);
}

/* What the list says, in words: each block that was not used, and each leaf that was left out. Gives the leaves that were kept. */
uint64_t print_list(const uint8_t *image, size_t blocks, const uint64_t *list, uint64_t listed)
{
    uint32_t version = number(image + 6, 2), n = number(image + 8, 4);
    uint64_t above = 0, kept = 0, next = 0;
    for (size_t j = 1; j < blocks; j++) {
        const uint8_t *block = image + BLOCK * j;
        if (next < listed && list[next] == 8 * (uint64_t)j + 7) {
            const char *why = check_right(version, block) ? block_broken(block, j, j + 1 == blocks) : "its check is wrong";
            printf("block %zu not used: %s\n", j, why);
            next++;
            continue;
        }
        uint32_t count = number(block + 6, 2);
        for (uint32_t i = 0; i < count; i++) {
            const uint8_t *record = block + RECORDS + RECORD * i;
            if (next < listed && list[next] == 8 * (uint64_t)j + i) {
                printf("leaf %u left out of block %zu: %s\n", number(record, 4), j, record_broken(record, n, above));
                next++;
                continue;
            }
            above = (uint64_t)number(record, 4) + 1;
            kept++;
        }
    }
    return kept;
}
