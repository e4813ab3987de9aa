/* The archive's calls of libmodel.a for tests/driver.c, numbered as in tests/archive.rs. */

#include "driver.h"
#include "tag_model.h"

uint64_t call(uint64_t function, const struct argument *a)
{
    switch (function) {
    case 0: return tag_write_image(a[0].number, a[1].bytes, a[1].length, a[2].bytes, a[2].length);
    case 1: return tag_restore(a[0].bytes, a[0].length, a[1].bytes, a[1].length);
    case 2: return tag_image_test(a[0].bytes, a[0].length);
    default: no_function();
    }
}
