/* The worked example of docs/PREDICTION.md from C: four groups a run, one leaf. Status 1
 * on the first difference. */
#include <stdio.h>
#include <string.h>
#include "tag_model.h"

#define N 1
#define C 4

static uint8_t tags[64 * N];
static uint8_t bits[1];

static int wrong(const char *what, uint64_t got, uint64_t expected) {
    if (got == expected) return 0;
    printf("prediction: %s: %llu, expected %llu\n", what, (unsigned long long)got,
           (unsigned long long)expected);
    return 1;
}

static uint64_t read_group(uint64_t g) {
    return tag_predict_read(N, C, tags, sizeof tags, bits, sizeof bits, g);
}

static uint64_t write_group(uint64_t g, uint32_t v) {
    return tag_predict_write(N, C, tags, sizeof tags, bits, sizeof bits, g, v);
}

static uint64_t sync_run(uint64_t r) {
    return tag_predict_sync(N, C, tags, sizeof tags, bits, sizeof bits, r);
}

int main(void) {
    memset(tags, 0x77, sizeof tags);
    bits[0] = 0xff;
    if (wrong("fresh", tag_predict_fresh(N, C, tags, sizeof tags, bits, sizeof bits), 0)) return 1;
    if (wrong("bits after fresh", bits[0], 0x00)) return 1;
    if (wrong("read 5", read_group(5), 0)) return 1;
    if (wrong("write 5", write_group(5, 10), 0)) return 1;
    if (wrong("bits after write 5", bits[0], 0x02)) return 1;
    if (wrong("read 5 again", read_group(5), 10)) return 1;
    if (wrong("read 6", read_group(6), 0)) return 1;
    if (wrong("write 5 with 0", write_group(5, 0), 0)) return 1;
    if (wrong("bits after write 5 with 0", bits[0], 0x02)) return 1;
    if (wrong("read 5 after it", read_group(5), 0)) return 1;
    if (wrong("sync 1", sync_run(1), 0)) return 1;
    if (wrong("bits after sync 1", bits[0], 0x00)) return 1;
    if (wrong("read 16", read_group(16), TAG_MODEL_REFUSED + 6)) return 1;
    if (wrong("sync 4", sync_run(4), TAG_MODEL_REFUSED + 6)) return 1;
    if (wrong("another c", tag_predict_fresh(N, 5, tags, sizeof tags, bits, sizeof bits),
              TAG_MODEL_REFUSED + 15)) return 1;
    return 0;
}
