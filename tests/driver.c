/* Makes the calls that it is asked for on standard input, and answers on standard output: tests/driver.rs asks.
 *
 * A request is rows of four words of 8 bytes, low byte first; words that are not named are 0:
 *
 *   PUT slot length          then so many bytes: the slot holds them
 *   GET slot at length       answers that part of the slot's bytes
 *   CALL function count      then a row for each argument: answers the function's value, a word
 *     NUMBER value
 *     READ slot at length    that part of the slot is lent to read
 *     CHANGE slot at length  that part of the slot is lent to change
 *   SEND                     sends the answers so far
 *
 * A slot that is lent to read is compared with a copy after the call, or, where it is longer than OFTEN bytes, after so many
 * calls that this costs no more; and in any case before it holds other bytes or is lent to change, and at the end of the input.
 * The status is 1 where a byte was changed that was lent to read, 2 where the request makes no sense. */

#include <stdio.h>
#include <stdlib.h>
#include <string.h>

#include "driver.h"

enum { PUT, GET, CALL, SEND };
enum { NUMBER, READ, CHANGE };

#define SLOTS 16
#define ARGUMENTS 16
#define OFTEN (1 << 17)
#define BUFFER (1 << 20)

struct slot {
    uint8_t *bytes, *copy;
    size_t length;
    size_t due;  /* reaches length: to be compared; 0: it is as it was */
    int changed; /* lent to change since the copy was made */
};

static struct slot slots[SLOTS];
static uint64_t function;

static _Noreturn void stop(const char *sentence, int status)
{
    fflush(stdout);
    fprintf(stderr, "driver: function %llu: %s\n", (unsigned long long)function, sentence);
    exit(status);
}

_Noreturn void no_function(void)
{
    stop("there is no such function", 2);
}

static int receive(void *bytes, size_t length)
{
    return fread(bytes, 1, length, stdin) == length;
}

static void answer(const void *bytes, size_t length)
{
    if (fwrite(bytes, 1, length, stdout) != length)
        stop("nobody reads the answers", 2);
}

static struct slot *slot_of(uint64_t number)
{
    if (number >= SLOTS)
        stop("there is no such slot", 2);
    return &slots[number];
}

/* A slot that a row names with a part of its bytes. */
static struct slot *part_of(const uint64_t *row)
{
    struct slot *s = slot_of(row[1]);
    if (s->bytes == NULL || row[2] > s->length || row[3] > s->length - row[2])
        stop("the slot has no such part", 2);
    return s;
}

static void compare(struct slot *s)
{
    if (s->due != 0 && memcmp(s->bytes, s->copy, s->length) != 0)
        stop("it, or one of the calls before it, changed what it was lent to read", 1);
    s->due = 0;
}

static void put(const uint64_t *row)
{
    struct slot *s = slot_of(row[1]);
    compare(s);
    s->length = row[2];
    /* a byte more: a slice of no bytes has a place too */
    s->bytes = realloc(s->bytes, s->length + 1);
    s->copy = realloc(s->copy, s->length + 1);
    if (s->bytes == NULL || s->copy == NULL)
        stop("no memory", 2);
    if (!receive(s->bytes, s->length))
        stop("the input ends within a request", 2);
    s->changed = 1;
}

static void lend(const uint64_t *row, struct argument *a)
{
    struct slot *s = part_of(row);
    a->bytes = s->bytes + row[2];
    a->length = row[3];
    if (row[0] == CHANGE) {
        compare(s);
        s->changed = 1;
    } else if (s->changed) {
        memcpy(s->copy, s->bytes, s->length);
        s->changed = 0;
    }
}

static void make(const uint64_t *row)
{
    uint64_t rows[ARGUMENTS][4];
    struct argument arguments[ARGUMENTS] = {{0, NULL, 0}};
    size_t count = row[2];
    if (count > ARGUMENTS)
        stop("too many arguments", 2);
    if (!receive(rows, count * sizeof rows[0]))
        stop("the input ends within a request", 2);
    function = row[1];
    for (size_t i = 0; i < count; i++) {
        if (rows[i][0] == NUMBER)
            arguments[i].number = rows[i][1];
        else
            lend(rows[i], &arguments[i]);
    }
    uint64_t value = call(function, arguments);
    answer(&value, sizeof value);
    for (size_t i = 0; i < count; i++) {
        if (rows[i][0] != READ)
            continue;
        struct slot *s = slot_of(rows[i][1]);
        s->due += OFTEN;
        if (s->due >= s->length)
            compare(s);
    }
}

static void get(const uint64_t *row)
{
    answer(part_of(row)->bytes + row[2], row[3]);
}

int main(void)
{
    uint64_t row[4];
    setvbuf(stdin, NULL, _IOFBF, BUFFER);
    setvbuf(stdout, NULL, _IOFBF, BUFFER);
    while (receive(row, sizeof row)) {
        switch (row[0]) {
        case PUT: put(row); break;
        case GET: get(row); break;
        case CALL: make(row); break;
        case SEND: fflush(stdout); break;
        default: stop("there is no such request", 2);
        }
    }
    for (size_t i = 0; i < SLOTS; i++)
        compare(&slots[i]);
    return 0;
}
