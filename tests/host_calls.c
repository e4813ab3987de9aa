/* The calls of libhost.a for tests/driver.c, numbered as in tests/host.rs and tests/tagged.rs. */

#include "driver.h"
#include "tags.h"

uint64_t call(uint64_t function, const struct argument *a)
{
    switch (function) {
    case 0: return tag_plain_read(a[0].number, a[1].bytes, a[1].length, a[2].number);
    case 1: return tag_image_test(a[0].bytes, a[0].length);
    case 2: return tag_first_tagged(a[0].number, a[1].bytes, a[1].length, a[2].number, a[3].number);
    case 3: return tag_tagged_leaves(a[0].number, a[1].bytes, a[1].length, a[2].number, a[3].number);
    case 4: return tag_first_tagged_as_true(a[0].number, a[1].bytes, a[1].length, a[2].number, a[3].number);
    case 5: return tag_tagged_leaves_as_true(a[0].number, a[1].bytes, a[1].length, a[2].number, a[3].number);
    default: no_function();
    }
}
