/* The calls of salvage in libmodel.a for tests/driver.c, numbered as in tests/salvage.rs. A list is lent as its bytes, 8 for
 * each number, low byte first; it is copied to numbers and back, so that it need not be at a number's place. */

#include <stdlib.h>
#include <string.h>

#include "driver.h"
#include "tag_model.h"

static uint64_t salvage(const struct argument *image, const struct argument *output, const struct argument *list)
{
    size_t entries = list->length / 8;
    uint64_t *numbers = malloc(8 * entries + 8);
    if (numbers == NULL)
        no_function();
    memcpy(numbers, list->bytes, 8 * entries);
    uint64_t value = tag_salvage(image->bytes, image->length, output->bytes, output->length, numbers, entries);
    memcpy(list->bytes, numbers, 8 * entries);
    free(numbers);
    return value;
}

uint64_t call(uint64_t function, const struct argument *a)
{
    switch (function) {
    case 0: return salvage(&a[0], &a[1], &a[2]);
    case 1: return tag_salvage_listed(a[0].bytes, a[0].length);
    default: no_function();
    }
}
