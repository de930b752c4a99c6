/* Makes calls of the C library fail or fall short, in a program that it is loaded into by LD_PRELOAD.
 *
 * FAULT_CALL   the kind of calls: open, stat, read, write, text, truncate, close or pipe ("text" is write(2), which
 *              puts text on a stream; "read" and "write" are those of files)
 * FAULT_AT     which of them fails, counted from 1
 * FAULT_ERROR  the number of the error; 0: the call takes or gives nothing
 * FAULT_DONE   a file that is made when a call fails
 * FAULT_MOST   each read and write of a file or a stream takes at most that many bytes
 * FAULT_LOG    a file to which each write of a file is added: device, inode, position and length as 64 bits each, then
 *              the bytes
 *
 * Close is done even if it is made to fail, as Linux does it. Calls are counted over all threads.
 */
#define _GNU_SOURCE
#include <dlfcn.h>
#include <errno.h>
#include <fcntl.h>
#include <stdarg.h>
#include <stdatomic.h>
#include <stdint.h>
#include <stdlib.h>
#include <string.h>
#include <sys/stat.h>
#include <sys/syscall.h>
#include <unistd.h>

static atomic_long calls;

static long number(const char *name) {
    const char *text = getenv(name);
    return text ? atol(text) : -1;
}

/* Whether this call is the one that is to fail; errno is then set. */
static int fails(const char *kind) {
    const char *wanted = getenv("FAULT_CALL");
    if (!wanted || strcmp(wanted, kind) != 0 || atomic_fetch_add(&calls, 1) + 1 != number("FAULT_AT"))
        return 0;
    const char *done = getenv("FAULT_DONE");
    if (done)
        syscall(SYS_close, syscall(SYS_openat, AT_FDCWD, done, O_WRONLY | O_CREAT, 0666));
    errno = (int)number("FAULT_ERROR");
    return 1;
}

static long failure(void) { return errno ? -1 : 0; }

static size_t cut(size_t count) {
    long most = number("FAULT_MOST");
    return most >= 0 && count > (size_t)most ? (size_t)most : count;
}

/* Adds a write to the log. One write for each record, so that records of two threads do not mix. */
static void note(int fd, const void *bytes, size_t count, off_t at) {
    const char *log = getenv("FAULT_LOG");
    struct stat found;
    if (!log || fstat(fd, &found) != 0)
        return;
    uint64_t head[4] = {found.st_dev, found.st_ino, (uint64_t)at, count};
    char *record = malloc(sizeof head + count);
    if (!record)
        abort();
    memcpy(record, head, sizeof head);
    memcpy(record + sizeof head, bytes, count);
    long to = syscall(SYS_openat, AT_FDCWD, log, O_WRONLY | O_CREAT | O_APPEND, 0666);
    if (syscall(SYS_write, to, record, sizeof head + count) != (long)(sizeof head + count))
        abort();
    syscall(SYS_close, to);
    free(record);
}

#define NEXT(name) ((__typeof__(&name))dlsym(RTLD_NEXT, #name))

static mode_t mode_of(int flags, va_list words) { return (flags & O_CREAT) ? va_arg(words, mode_t) : 0; }

#define OPEN(name)                                                                                                     \
    int name(const char *path, int flags, ...) {                                                                       \
        va_list words;                                                                                                 \
        va_start(words, flags);                                                                                        \
        mode_t mode = mode_of(flags, words);                                                                           \
        va_end(words);                                                                                                 \
        return fails("open") ? -1 : NEXT(name)(path, flags, mode);                                                     \
    }
OPEN(open)
OPEN(open64)

#define OPENAT(name)                                                                                                   \
    int name(int folder, const char *path, int flags, ...) {                                                           \
        va_list words;                                                                                                 \
        va_start(words, flags);                                                                                        \
        mode_t mode = mode_of(flags, words);                                                                           \
        va_end(words);                                                                                                 \
        return fails("open") ? -1 : NEXT(name)(folder, path, flags, mode);                                             \
    }
OPENAT(openat)
OPENAT(openat64)

int statx(int folder, const char *restrict path, int flags, unsigned mask, struct statx *restrict found) {
    return fails("stat") ? -1 : NEXT(statx)(folder, path, flags, mask, found);
}

#define PREAD(name)                                                                                                    \
    ssize_t name(int fd, void *bytes, size_t count, off_t at) {                                                        \
        if (fails("read"))                                                                                             \
            return failure();                                                                                          \
        return NEXT(name)(fd, bytes, cut(count), at);                                                                  \
    }
PREAD(pread)
PREAD(pread64)

#define PWRITE(name)                                                                                                   \
    ssize_t name(int fd, const void *bytes, size_t count, off_t at) {                                                  \
        if (fails("write"))                                                                                            \
            return failure();                                                                                          \
        ssize_t done = NEXT(name)(fd, bytes, cut(count), at);                                                          \
        if (done > 0)                                                                                                  \
            note(fd, bytes, (size_t)done, at);                                                                         \
        return done;                                                                                                   \
    }
PWRITE(pwrite)
PWRITE(pwrite64)

ssize_t write(int fd, const void *bytes, size_t count) {
    return fails("text") ? failure() : NEXT(write)(fd, bytes, cut(count));
}

int ftruncate(int fd, off_t size) { return fails("truncate") ? -1 : NEXT(ftruncate)(fd, size); }

int ftruncate64(int fd, off64_t size) { return fails("truncate") ? -1 : NEXT(ftruncate64)(fd, size); }

int close(int fd) {
    int done = (int)syscall(SYS_close, fd);
    return fails("close") ? -1 : done;
}

int pipe2(int fds[2], int flags) { return fails("pipe") ? -1 : NEXT(pipe2)(fds, flags); }
