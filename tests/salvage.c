/* Salvage from C, on bytes written by hand: the head of n = 2, m = 0 with its check from document 02, and a block of zeros. */

#include <stdio.h>
#include <string.h>

#include "tag_model.h"

static int failures;

static void expect(const char *what, uint64_t got, uint64_t wanted)
{
    if (got == wanted)
        return;
    printf("salvage: %s: %llu, not %llu\n", what, (unsigned long long)got, (unsigned long long)wanted);
    failures++;
}

int main(void)
{
    static uint8_t image[1024], output[1024], wanted[1024];
    uint64_t list[2] = {77, 77};
    image[4] = 1;
    image[6] = 2;
    image[8] = 2;
    memcpy(image + 508, "\x06\x00\xE4\x05", 4);

    /* the head alone comes out unchanged, and what lies past it stays */
    memset(output, 99, sizeof output);
    memset(wanted, 99, sizeof wanted);
    memcpy(wanted, image, 512);
    expect("the head alone", tag_salvage(image, 512, output, sizeof output, list, 2), 512);
    expect("its bytes", memcmp(output, wanted, sizeof output) != 0, 0);
    expect("nothing listed", tag_salvage_listed(image, 512), 0);
    expect("the list stays", list[0], 77);

    /* the block of zeros after it is not used: 8 x 1 + 7 */
    expect("one entry", tag_salvage_listed(image, 1024), 1);
    expect("a block of zeros", tag_salvage(image, 1024, output, sizeof output, list, 2), 512);
    expect("the same bytes", memcmp(output, wanted, sizeof output) != 0, 0);
    expect("the entry", list[0], 15);
    expect("past the list", list[1], 77);

    /* refused: lengths, the head's check, room for either */
    memset(output, 98, sizeof output);
    memset(wanted, 98, sizeof wanted);
    list[0] = 76;
    expect("no length", tag_salvage(image, 0, output, sizeof output, list, 2), TAG_MODEL_REFUSED + 10);
    expect("half a block", tag_salvage(image, 1000, output, sizeof output, list, 2), TAG_MODEL_REFUSED + 10);
    expect("the same of the list", tag_salvage_listed(image, 1000), TAG_MODEL_REFUSED + 10);
    expect("a short output", tag_salvage(image, 1024, output, 511, list, 2), TAG_MODEL_REFUSED + 9);
    expect("no output", tag_salvage(image, 1024, output, 0, list, 2), TAG_MODEL_REFUSED + 9);
    expect("no list", tag_salvage(image, 1024, output, sizeof output, list, 0), TAG_MODEL_REFUSED + 9);
    image[508] = 7;
    expect("the head's check", tag_salvage(image, 1024, output, sizeof output, list, 2), TAG_MODEL_REFUSED + 10);
    /* n = 0: a and b are lower by 2 and by 2 for each of the words from the fifth to the last, 250 of them */
    image[8] = 0;
    image[508] = 4;
    image[510] = 0xF0;
    image[511] = 0x03;
    expect("no leaves", tag_salvage(image, 1024, output, sizeof output, list, 2), TAG_MODEL_REFUSED + 11);
    expect("the same of the list", tag_salvage_listed(image, 1024), TAG_MODEL_REFUSED + 11);
    expect("nothing is written", memcmp(output, wanted, sizeof output) != 0, 0);
    expect("nor listed", list[0], 76);
    if (failures == 0)
        printf("salvage: as written by hand\n");
    return failures != 0;
}
