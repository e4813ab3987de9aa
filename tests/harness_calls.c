/* The cache's and the archive's calls in libmodel.a for tests/driver.c, numbered as in tests/harness.rs. */

#include "driver.h"
#include "tag_model.h"

#define WORDS(a) (uint64_t *)(void *)(a).bytes, (a).length / 8
#define BYTES(a) (a).bytes, (a).length

uint64_t call(uint64_t function, const struct argument *a)
{
    switch (function) {
    case 0: return tag_fresh(WORDS(a[0]), WORDS(a[1]), BYTES(a[2]), BYTES(a[3]));
    case 1: return tag_open(WORDS(a[0]), WORDS(a[1]), BYTES(a[2]), BYTES(a[3]));
    case 2:
        return tag_issue(WORDS(a[0]), BYTES(a[1]), BYTES(a[2]), a[3].number, a[4].number, a[5].number, a[6].number,
                         (uint32_t)a[7].number);
    case 3: return tag_step(WORDS(a[0]), BYTES(a[1]), BYTES(a[2]), a[3].number, WORDS(a[4]));
    case 4: return tag_drain(WORDS(a[0]), BYTES(a[1]), BYTES(a[2]));
    case 5: return tag_show(WORDS(a[0]), BYTES(a[1]), BYTES(a[2]), a[3].number);
    case 6: return tag_whole(WORDS(a[0]));
    case 7: return tag_write_image(a[0].number, BYTES(a[1]), BYTES(a[2]));
    case 8: return tag_restore(BYTES(a[0]), BYTES(a[1]));
    case 9: return tag_record(BYTES(a[0]), a[1].number, WORDS(a[2]));
    case 10: return tag_run(WORDS(a[0]), BYTES(a[1]), BYTES(a[2]), WORDS(a[3]), WORDS(a[4]));
    case 11: return tag_open_reader(BYTES(a[0]), WORDS(a[1]));
    default: no_function();
    }
}
