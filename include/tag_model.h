/* The model in a licensee's own harness, from C.
 *
 * Link with libmodel.a. It has the calls of tags.h too: link with it or with libhost.a, not
 * with both. The functions keep nothing between calls, and two threads may call at once as
 * long as neither changes what the other was lent. A pointer must not be null, and must lend
 * as many bytes, or words of 8 bytes aligned to 8, as the length after it says; where that is
 * 0 nothing is read or written through it. What two pointers of one call lend must not
 * overlap.
 *
 * Numbers as in tags.h: n leaves (1 to 262144) have 16 n groups, each the 8 tags of one
 * 64-byte data block: 32 bits, tag j in bits 4j to 4j+3. A memory of n leaves is
 * 64 * (n + n/512 rounded up) bytes: the leaves, then the map blocks.
 */
#ifndef TAG_MODEL_H
#define TAG_MODEL_H

#include <stddef.h>
#include <stdint.h>

#include "tags.h"

#ifdef __cplusplus
extern "C" {
#endif

/* A refused call gives TAG_MODEL_REFUSED plus the refusal, by its number in the papers,
 * and leaves all that it was lent as it came; a refused tag_fresh or tag_open makes the
 * state's words zero, a refused tag_open_reader the reader's, unless a number of words is
 * wrong. */
#define TAG_MODEL_REFUSED UINT64_C(4294967296)

/* The refusals of the calls below, by their numbers in the papers; tags.h has 1, 2, 3, 6,
 * 10 and 11. */
#define TAG_BROKEN 4   /* the state is broken, or its words code no state */
#define TAG_TRACKER 5  /* x is T or more */
#define TAG_BUSY 7     /* tracker x is busy; for a drain or a show, some tracker is */
#define TAG_IDLE 8     /* tracker x is idle */
#define TAG_ROOM 9     /* the output is too short */
#define TAG_FORM 12    /* a call of tag_run has another form */
#define TAG_MEETS 13   /* another tracker is busy with group g, and one of the two writes */

/* The cache and its trackers.
 *
 * A state is TAG_STATE_WORDS words: n, T, L, the hand; then 64 lines, a word each: 0 is
 * free, else of the word less 1 the lowest bit says changed, the next seven are 1 plus the
 * number of the tracker that holds the line's block, or 0, and the rest is the block, leaf k
 * as k and map block m as n + m; then of each of 8 trackers TAG_TRACKER_WORDS words: its
 * phase (0 idle, 1 Probe, 2 Map, 3 Leaf, 4 Finish to set, 5 Finish to clear), whether it
 * writes, whether it is bottom-up (0 or 1), its group, its value, its turns, the blocks
 * fetched for it and those written back (0 to 255, each stays at 255 once there). The line
 * bytes are 64 L, the memory is that of n leaves. Keep all three between calls as they came
 * back. A state that a caller changed is tested: it is either whole, or refused with TAG_BROKEN.
 *
 * A device is TAG_DEVICE_WORDS words: n, T (1 to 8), L (T + 1 to 64).
 *
 * A wrong number of words in device, state or answer is TAG_LENGTH, before all else. */
#define TAG_STATE_WORDS 132
#define TAG_TRACKER_WORDS 8
#define TAG_DEVICE_WORDS 3
#define TAG_ANSWER_WORDS 6

/* A fresh memory: every map byte is made 0. Gives 0. Refused 1, 2. */
uint64_t tag_fresh(const uint64_t *device, size_t device_words, uint64_t *state,
                   size_t state_words, const uint8_t *bytes, size_t bytes_length,
                   uint8_t *memory, size_t memory_length);

/* A memory as it is. Gives 0. Refused 1, 2, 3. */
uint64_t tag_open(const uint64_t *device, size_t device_words, uint64_t *state,
                  size_t state_words, const uint8_t *bytes, size_t bytes_length,
                  const uint8_t *memory, size_t memory_length);

/* Issues an access to tracker x: of group g, a write of v where `write` is not 0, else a
 * read; bottom-up where `bottom` is not 0, else top-down. Gives 0. Refused 4, 2, 5, 6, 7,
 * 13. */
uint64_t tag_issue(uint64_t *state, size_t state_words, const uint8_t *bytes,
                   size_t bytes_length, const uint8_t *memory, size_t memory_length,
                   uint64_t x, uint64_t write, uint64_t bottom, uint64_t g, uint32_t v);

/* One step of tracker x. Gives 0, and the answer: what was said, the value that was read,
 * the turns, the blocks fetched and written back, and a word that is 0; but for an
 * ending the transfers are 0. Refused 4, 2, 5, 8. */
#define TAG_WAIT 1
#define TAG_MOVED 2
#define TAG_READ 3
#define TAG_DONE 4
#define TAG_SAME 5
uint64_t tag_step(uint64_t *state, size_t state_words, uint8_t *bytes, size_t bytes_length,
                  uint8_t *memory, size_t memory_length, uint64_t x, uint64_t *answer,
                  size_t answer_words);

/* Writes the changed lines to memory and marks them clean. Gives their number, 0 to 64.
 * Refused 4, 2, 7. */
uint64_t tag_drain(uint64_t *state, size_t state_words, const uint8_t *bytes,
                   size_t bytes_length, uint8_t *memory, size_t memory_length);

/* Plays calls one after another on a state that is tested once. A call is TAG_CALL_WORDS
 * words: what it is, x, write, bottom, g, v, as tag_issue takes them; a step needs x alone, a
 * drain none, and their other words are not read. Each has TAG_ANSWER_WORDS words of
 * answers, in order: for a step those of tag_step; for an accepted issue or drain the first
 * is TAG_ACCEPTED, and the fifth is what a drain gives; for a refused call the first is the
 * number that the call itself would give, and the call changes nothing; the rest are 0. A
 * call of another number, and an issue whose v has more than 32 bits, are refused with
 * TAG_FORM. Gives 0, whatever its calls are given. Refused 4, 2, and then no call is played:
 * 2 too, before all else, where the words of calls are no number of calls, or those of
 * answers are not of as many. */
#define TAG_CALL_WORDS 6
#define TAG_ISSUE 1
#define TAG_STEP 2
#define TAG_DRAIN 3
#define TAG_ACCEPTED 0
uint64_t tag_run(uint64_t *state, size_t state_words, uint8_t *bytes, size_t bytes_length,
                 uint8_t *memory, size_t memory_length, const uint64_t *calls,
                 size_t calls_words, uint64_t *answers, size_t answers_words);

/* Where the 64 bytes of leaf k are: 0 where it has none, else 1 plus their place in the line
 * bytes, or TAG_IN_MEMORY plus 1 plus their place in memory. Refused 4, 2, 6, 7. */
#define TAG_IN_MEMORY UINT64_C(1099511627776)
uint64_t tag_show(const uint64_t *state, size_t state_words, const uint8_t *bytes,
                  size_t bytes_length, const uint8_t *memory, size_t memory_length, uint64_t k);

/* 1 where the state is whole, 0 where it is broken or its words code none. Refused 2. */
uint64_t tag_whole(const uint64_t *state, size_t state_words);

/* Archive images.
 *
 * tag_write_image writes the image of a true memory to the front of the output and gives its
 * length. Refused 1, 2, 3, 9. tag_restore fills all of the memory from an image. Gives 0.
 * Refused 10, 11, 2. tag_open_reader tests an image, once for a whole walk. Gives 0, and
 * the reader's TAG_READER_WORDS words are the length of its image and its place: all of the
 * image, and 0. Refused 2, for another number of words, 10, 11. tag_record reads the record
 * at place p of an image, which it does not test: 0 at the end, else 1, and the record's
 * TAG_RECORD_WORDS words are its leaf and the place of its 64 bytes in the image; the next
 * place is p + 1. At the end they stay as they came. Refused 2, for another number of
 * words. */
#define TAG_READER_WORDS 2
#define TAG_RECORD_WORDS 2
uint64_t tag_write_image(uint64_t n, const uint8_t *memory, size_t memory_length,
                         uint8_t *output, size_t output_length);
uint64_t tag_restore(const uint8_t *image, size_t image_length, uint8_t *memory,
                     size_t memory_length);
uint64_t tag_open_reader(const uint8_t *image, size_t image_length, uint64_t *reader,
                         size_t reader_words);
uint64_t tag_record(const uint8_t *image, size_t image_length, uint64_t p, uint64_t *record,
                    size_t record_words);

/* Prediction bits: one bit for a run of c groups.
 *
 * c is 4, 8, 16 or 32. There are R = 16 n / c runs, rounded up; run r has the groups from
 * r c on, c of them, the last run those that are left. The tags are 64 n bytes: group g
 * in the 4 bytes from 4 g on, low byte first. The bits are R / 8 bytes, rounded up: run
 * r's bit in byte r / 8, bit r mod 8, bit 0 lowest; the bits past the last run's are
 * spare. Any bytes of these lengths are taken. Refused, the first that applies:
 *   TAG_MODEL_REFUSED + 1    n is 0 or above 262144
 *   TAG_MODEL_REFUSED + 15   c is none of 4, 8, 16, 32
 *   TAG_MODEL_REFUSED + 2    tags_length or bits_length is not as above
 *   TAG_MODEL_REFUSED + 6    g is 16 n or more, r is R or more
 * Begin with tag_predict_fresh, and keep n and c: then each read gives what was last
 * written to its group, or 0.
 */

/* Makes every lent byte of tags and bits zero, spare bits too. Gives 0. */
uint64_t tag_predict_fresh(uint64_t n, uint64_t c, uint8_t *tags, size_t tags_length,
                           uint8_t *bits, size_t bits_length);

/* The value of group g: 0 if the bit of its run is 0, whatever the tags are; else its 4
 * bytes of tags. */
uint64_t tag_predict_read(uint64_t n, uint64_t c, const uint8_t *tags, size_t tags_length,
                          const uint8_t *bits, size_t bits_length, uint64_t g);

/* Makes group g the value v, and sets the bit of its run unless v is 0. Spare bits stay.
 * Gives 0. */
uint64_t tag_predict_write(uint64_t n, uint64_t c, uint8_t *tags, size_t tags_length,
                           uint8_t *bits, size_t bits_length, uint64_t g, uint32_t v);

/* Synchronises run r: its bit is made 1 if any of its groups is not zero, else 0. Spare
 * bits stay. Gives 0. */
uint64_t tag_predict_sync(uint64_t n, uint64_t c, const uint8_t *tags, size_t tags_length,
                          uint8_t *bits, size_t bits_length, uint64_t r);

/* Salvage of a damaged archive image: a new sound image of version 2 from what is sound,
 * and a list of what was left out.
 *
 * The head, block 0, must be sound; only its m, the number of records, may be anything. A
 * later block is used where its check by the head's version, its number (its place), kind,
 * count (7, in the image's last block 1 to 7) and unused bytes are right. Of its records,
 * in order, each that is not empty and has a leaf number below n and above the last one
 * kept is kept.
 *
 * The list has, in input order and rising, 8 * place + 7 for each block that is not used
 * and 8 * place + i for each record i, 0 to 6, of a used block that is not kept.
 */

/* Writes the new image in front of output and the list in front of list, which lends
 * list_length numbers, and gives the image's length; what lies past the image and past the
 * list stays. An output as long as the image always has room. Refused, the first that applies:
 *   TAG_MODEL_REFUSED + 10   image_length is 0 or not a multiple of 512, or the head's
 *                            check is wrong
 *   TAG_MODEL_REFUSED + 11   another rule of the head is broken
 *   TAG_MODEL_REFUSED + 9    the output or the list is too short
 */
uint64_t tag_salvage(const uint8_t *image, size_t image_length, uint8_t *output, size_t output_length,
                     uint64_t *list, size_t list_length);

/* The number of entries that tag_salvage lists for this image; below TAG_MODEL_REFUSED
 * for an image of less than 300 GB. Or TAG_MODEL_REFUSED plus 10 or 11, as there. */
uint64_t tag_salvage_listed(const uint8_t *image, size_t image_length);

#ifdef __cplusplus
}
#endif

#endif
