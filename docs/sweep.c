/* A sweep: every tagged group of a true memory, by asking again and again what comes next.
 *
 * The memory is the one that a drain left, and nothing writes to it while the sweep goes on.
 * So it is asked once whether it is true, and then taken as true: tag_first_tagged tests all of
 * it at each call, tag_first_tagged_as_true passes over zero map bytes and stops at the answer.
 * A group that the sweep clears in its own copy of the tags makes no difference: the next call
 * begins after it.
 *
 *     cc -I include docs/sweep.c target/staticlib/libhost.a && ./a.out
 *
 * The gate builds and runs it: the exit status is 0 only if the sweep visits what it should. */

#include <stdio.h>
#include <string.h>

#include "tags.h"

/* Calls `visit` with every tagged group of a memory of n leaves, lowest first. Gives the number
 * of them, or TAG_REFUSED plus the refusal. */
static uint64_t sweep(uint64_t n, const uint8_t *memory, size_t length, void (*visit)(uint64_t group))
{
    uint64_t visited = 0;
    uint64_t group = tag_first_tagged(n, memory, length, 0, 16 * n);
    while (group < TAG_REFUSED) {
        visit(group);
        visited++;
        group = tag_first_tagged_as_true(n, memory, length, group + 1, 16 * n);
    }
    return group == TAG_NONE ? visited : group;
}

static uint64_t seen[8], times;

static void note(uint64_t group)
{
    seen[times++ % 8] = group;
}

int main(void)
{
    static uint8_t memory[64 * 21]; /* 20 leaves and a map block */
    static const uint64_t tagged[] = {3, 15, 16, 300, 319};
    uint8_t *map = memory + 64 * 20;

    memset(memory + 64 * 5, 0xee, 64); /* leaf 5 is stale: its bit is 0 */
    for (int i = 0; i < 5; i++) {
        memory[4 * tagged[i]] = 1; /* 4 bytes a group, 64 a leaf */
        map[tagged[i] / 16 / 8] |= 1 << tagged[i] / 16 % 8;
    }
    int right = sweep(20, memory, sizeof memory, note) == 5 && times == 5 && memcmp(seen, tagged, sizeof tagged) == 0;
    right &= tag_tagged_leaves(20, memory, sizeof memory, 0, 320) == 4;
    map[0] |= 1 << 7; /* bit 1 over zeros: not true */
    right &= sweep(20, memory, sizeof memory, note) == TAG_REFUSED + TAG_UNTRUE && times == 5;
    puts(right ? "sweep: every tagged group, and no other" : "sweep: WRONG");
    return !right;
}
