/* The calls of prediction bits in libmodel.a for tests/driver.c, numbered as in tests/prediction.rs. */

#include "driver.h"
#include "tag_model.h"

uint64_t call(uint64_t function, const struct argument *a)
{
    uint64_t n = a[0].number, c = a[1].number;
    uint8_t *tags = a[2].bytes, *bits = a[3].bytes;
    size_t tags_length = a[2].length, bits_length = a[3].length;
    switch (function) {
    case 0: return tag_predict_fresh(n, c, tags, tags_length, bits, bits_length);
    case 1: return tag_predict_read(n, c, tags, tags_length, bits, bits_length, a[4].number);
    case 2: return tag_predict_write(n, c, tags, tags_length, bits, bits_length, a[4].number, (uint32_t)a[5].number);
    case 3: return tag_predict_sync(n, c, tags, tags_length, bits, bits_length, a[4].number);
    default: no_function();
    }
}
