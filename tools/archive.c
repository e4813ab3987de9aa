/* The keeper's tool over the proved library: labels archive images and salvages damaged ones. docs/ARCHIVE.md is its page.
 *
 * A label's number is tag_image_test's answer, a salvaged image and what is listed are tag_salvage's. Only the words that say
 * why are this program's own: they are tested, not proved. A file is mapped, to be read only, and never copied. */

#define _GNU_SOURCE
#include <errno.h>
#include <fcntl.h>
#include <setjmp.h>
#include <signal.h>
#include <stdio.h>
#include <stdlib.h>
#include <string.h>
#include <sys/mman.h>
#include <sys/stat.h>
#include <sys/time.h>
#include <unistd.h>

#include "tag_model.h"
#include "tags.h"
#include "why.h"

/* How it ended. */
enum { DONE = 0, REFUSED = 1, FAILED = 2, LEFT_OUT = 3 };

/* No image of version 2 is longer: 262,144 leaves, 7 to a block, and the head. */
#define LONGEST ((size_t)BLOCK * (1 + (262144 + 6) / 7))

static const char help[] =
    "usage: ./archive label FILE..            a line for each file: is it an image, and of what\n"
    "       ./archive salvage [--replace] OLD NEW\n"
    "                                         a new sound image from what is sound in OLD, and\n"
    "                                         a line for each block and leaf left out\n"
    "       ./archive --help\n"
    "\n"
    "OLD is only read. NEW appears whole or not at all; one that is there is kept unless --replace\n"
    "is given. After a second, what is being done is said on standard error every second.\n"
    "\n"
    "status of label:    0  every file is an accepted image\n"
    "                    1  some file is not\n"
    "                    2  some file could not be read\n"
    "status of salvage:  0  NEW is written, nothing is left out\n"
    "                    3  NEW is written, something is left out\n"
    "                    1  refused: OLD has no sound head; nothing is written\n"
    "                    2  it could not be done; nothing is written\n";

/* ---- what goes on, for whoever waits */

static char doing[512]; /* what is being done, in words */
static volatile sig_atomic_t seconds;
static char unfinished[4096]; /* the file that is being written, to be removed where the work ends early */
static sigjmp_buf gone;
static volatile sig_atomic_t reading, written; /* a mapped file is read; NEW is there */

static void say(const char *words)
{
    ssize_t ignored = write(2, words, strlen(words));
    (void)ignored;
}

static void tick(int signal)
{
    (void)signal;
    int saved = errno;
    char number[16];
    int at = sizeof number;
    int left = ++seconds;
    number[--at] = '\0';
    do
        number[--at] = (char)('0' + left % 10);
    while ((left /= 10) > 0);
    say("archive: ");
    say(doing);
    say(", ");
    say(number + at);
    say(" s\n");
    errno = saved;
}

static void stopped(int number)
{
    if (unfinished[0] != '\0')
        unlink(unfinished);
    signal(number, SIG_DFL);
    raise(number);
}

/* A mapped file that ends before it is read through. */
static void ended(int number)
{
    if (reading)
        siglongjmp(gone, 1);
    signal(number, SIG_DFL);
    raise(number);
}

static void on(int number, void (*handler)(int), int flags)
{
    struct sigaction action;
    memset(&action, 0, sizeof action);
    action.sa_handler = handler;
    action.sa_flags = flags;
    sigaction(number, &action, NULL);
}

/* Says what is being done once it takes more than a second. */
static void begin(const char *what, const char *file)
{
    struct itimerval every = {{1, 0}, {1, 0}};
    snprintf(doing, sizeof doing, "%s %s", what, file);
    seconds = 0;
    on(SIGALRM, tick, SA_RESTART);
    setitimer(ITIMER_REAL, &every, NULL);
}

static void end(void)
{
    struct itimerval never = {{0, 0}, {0, 0}};
    setitimer(ITIMER_REAL, &never, NULL);
}

/* ---- files */

struct file {
    const uint8_t *bytes;
    size_t length;
    struct stat stat;
};

/* Maps a file to be read. Gives why not, or NULL. */
static const char *map(const char *name, struct file *file)
{
    static const uint8_t nothing[1];
    int descriptor = open(name, O_RDONLY | O_NONBLOCK | O_CLOEXEC);
    if (descriptor < 0)
        return strerror(errno);
    const char *why = NULL;
    if (fstat(descriptor, &file->stat) != 0)
        why = strerror(errno);
    else if (S_ISDIR(file->stat.st_mode))
        why = "it is a directory";
    else if (!S_ISREG(file->stat.st_mode))
        why = "it is no file";
    else if (file->stat.st_size == 0)
        file->bytes = nothing, file->length = 0;
    else {
        file->length = (size_t)file->stat.st_size;
        void *bytes = mmap(NULL, file->length, PROT_READ, MAP_PRIVATE, descriptor, 0);
        if (bytes == MAP_FAILED)
            why = strerror(errno);
        file->bytes = bytes;
    }
    close(descriptor);
    return why;
}

static void unmap(struct file *file)
{
    if (file->length != 0)
        munmap((void *)file->bytes, file->length);
}

/* ---- label */

static int label(const char *name)
{
    struct file file;
    const char *why = map(name, &file);
    if (why != NULL) {
        printf("%s: not read: %s\n", name, why);
        return FAILED;
    }
    if (sigsetjmp(gone, 1) != 0) {
        reading = 0;
        printf("%s: not read: it ended while it was read\n", name);
        unmap(&file);
        return FAILED;
    }
    reading = 1;
    size_t blocks = file.length / BLOCK;
    uint64_t answer = tag_image_test(file.bytes, file.length);
    if (answer == 0) {
        printf("%s: accepted, version %u, n %u, %u leaves\n", name, number(file.bytes + 6, 2), number(file.bytes + 8, 4),
               number(file.bytes + 12, 4));
    } else if (file.length == 0) {
        printf("%s: %llu, it is empty\n", name, (unsigned long long)answer);
    } else if (file.length % BLOCK != 0) {
        printf("%s: %llu, its length, %zu, is no multiple of 512\n", name, (unsigned long long)answer, file.length);
    } else if (answer == TAG_IMAGE_CHECK) {
        size_t j = 0;
        while (j < blocks && check_right(number(file.bytes + 6, 2), file.bytes + BLOCK * j))
            j++;
        printf("%s: %llu, the check of block %zu is wrong\n", name, (unsigned long long)answer, j);
    } else {
        printf("%s: %llu, ", name, (unsigned long long)answer);
        print_broken(file.bytes, blocks);
    }
    reading = 0;
    unmap(&file);
    return answer == 0 ? DONE : REFUSED;
}

static int labels(int count, char **names)
{
    int status = DONE;
    for (int i = 0; i < count; i++) {
        char what[64];
        snprintf(what, sizeof what, "file %d of %d, testing", i + 1, count);
        begin(what, names[i]);
        int one = label(names[i]);
        end();
        fflush(stdout);
        if (one > status)
            status = one;
    }
    return status;
}

/* ---- salvage */

static int fails(const char *name, const char *why)
{
    fflush(stdout);
    fprintf(stderr, "archive: %s: %s; nothing is written\n", name, why);
    return FAILED;
}

/* The temporary name becomes NEW; one that is there is replaced only where told. */
static int appear(const char *temporary, const char *new, int replace)
{
    if (replace)
        return rename(temporary, new);
    if (renameat2(AT_FDCWD, temporary, AT_FDCWD, new, RENAME_NOREPLACE) == 0)
        return 0;
    if (errno != EINVAL && errno != ENOSYS)
        return -1;
    /* no such rename here: link makes no name that is there */
    return link(temporary, new) == 0 ? unlink(temporary) : -1;
}

/* The bytes under a temporary name beside NEW, then as NEW. Gives why not, or NULL. */
static const char *write_new(const char *new, const uint8_t *bytes, size_t length, int replace)
{
    static char temporary[sizeof unfinished];
    if (snprintf(temporary, sizeof temporary, "%s.XXXXXX", new) >= (int)sizeof temporary)
        return "its name is too long";
    int descriptor = mkstemp(temporary);
    if (descriptor < 0)
        return strerror(errno);
    memcpy(unfinished, temporary, sizeof unfinished);
    const char *why = NULL;
    mode_t mask = umask(0);
    umask(mask);
    size_t at = 0;
    while (at < length && why == NULL) {
        ssize_t wrote = write(descriptor, bytes + at, length - at);
        if (wrote > 0)
            at += (size_t)wrote;
        else if (wrote == 0 || errno != EINTR)
            why = strerror(wrote == 0 ? ENOSPC : errno);
    }
    if (why == NULL && (fchmod(descriptor, 0666 & ~mask) != 0 || fsync(descriptor) != 0))
        why = strerror(errno);
    if (close(descriptor) != 0 && why == NULL)
        why = strerror(errno);
    if (why == NULL && appear(temporary, new, replace) != 0)
        why = strerror(errno);
    if (why != NULL)
        unlink(temporary);
    unfinished[0] = '\0';
    return why;
}

static int salvage(const char *old, const char *new, int replace)
{
    struct file file;
    struct stat there;
    const char *why = map(old, &file);
    if (why != NULL)
        return fails(old, why);
    if (stat(new, &there) == 0 || lstat(new, &there) == 0) {
        if (there.st_dev == file.stat.st_dev && there.st_ino == file.stat.st_ino)
            return fails(new, "it is OLD itself");
        if (S_ISDIR(there.st_mode))
            return fails(new, "it is a directory");
        if (!replace)
            return fails(new, "it is there already (--replace takes its place)");
    }
    if (sigsetjmp(gone, 1) != 0) {
        reading = 0;
        if (!written)
            return fails(old, "it ended while it was read");
        fflush(stdout);
        fprintf(stderr, "archive: %s: it ended while what is left out was said; %s is written\n", old, new);
        return LEFT_OUT;
    }
    reading = 1;
    begin("salvaging", old);
    uint64_t listed = tag_salvage_listed(file.bytes, file.length);
    if (listed == TAG_MODEL_REFUSED + 10 || listed == TAG_MODEL_REFUSED + 11) {
        end();
        printf("%s: %llu, ", old, (unsigned long long)(listed - TAG_MODEL_REFUSED));
        if (file.length == 0)
            printf("it is empty\n");
        else if (file.length % BLOCK != 0)
            printf("its length, %zu, is no multiple of 512\n", file.length);
        else if (listed == TAG_MODEL_REFUSED + 10)
            printf("the check of block 0 is wrong\n");
        else
            printf("the head: %s\n", head_broken(file.bytes));
        return REFUSED;
    }
    size_t room = file.length < LONGEST ? file.length : LONGEST;
    uint8_t *output = malloc(room);
    uint64_t *list = malloc(8 * listed + 8);
    if (output == NULL || list == NULL)
        return fails(old, "there is no memory for what it lists");
    uint64_t length = tag_salvage(file.bytes, file.length, output, room, list, listed);
    if (length >= TAG_MODEL_REFUSED)
        return fails(old, "it was changed while it was read");
    why = write_new(new, output, length, replace);
    end();
    if (why != NULL)
        return fails(new, why);
    written = 1;
    begin("listing what is left out of", old);
    uint64_t kept = print_list(file.bytes, file.length / BLOCK, list, listed);
    end();
    reading = 0;
    printf("%s: version 2, n %u, %llu leaves; %llu listed\n", new, number(output + 8, 4), (unsigned long long)kept,
           (unsigned long long)listed);
    return listed == 0 ? DONE : LEFT_OUT;
}

int main(int count, char **words)
{
    int status = FAILED;
    on(SIGINT, stopped, 0);
    on(SIGTERM, stopped, 0);
    on(SIGHUP, stopped, 0);
    on(SIGBUS, ended, SA_NODEFER);
    if (count >= 3 && strcmp(words[1], "label") == 0)
        status = labels(count - 2, words + 2);
    else if (count == 4 && strcmp(words[1], "salvage") == 0)
        status = salvage(words[2], words[3], 0);
    else if (count == 5 && strcmp(words[1], "salvage") == 0 && strcmp(words[2], "--replace") == 0)
        status = salvage(words[3], words[4], 1);
    else if (count == 2 && strcmp(words[1], "--help") == 0)
        fputs(help, stdout), status = DONE;
    else
        fputs(help, stderr);
    if (fflush(stdout) != 0 || ferror(stdout)) {
        fprintf(stderr, "archive: what it says could not be written: %s\n", strerror(errno));
        return FAILED;
    }
    return status;
}
