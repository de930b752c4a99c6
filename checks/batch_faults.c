/* Has a file call of las-batch fail, end the process, or come after another program did something: in the process that it
 * is loaded into by LD_PRELOAD, and in none that this one starts.
 *
 * FAULT_FOLDER  calls that name a file below this folder, or a relative path, are counted, from 1
 * FAULT_NAME    of these, those of this name alone
 * FAULT_AT      the call that is meant
 * FAULT_ERROR   the number of the error that it fails with
 * FAULT_STAYS   so do all calls that take room on a disk, from that one on
 * FAULT_KILL    "before" or "after": the process ends by SIGKILL there
 * FAULT_RUN     a line of the shell that is run before the call
 * FAULT_LOG     a file to which the name of each counted call is added
 */
#define _GNU_SOURCE
#include <dlfcn.h>
#include <errno.h>
#include <fcntl.h>
#include <signal.h>
#include <stdarg.h>
#include <stdatomic.h>
#include <stdio.h>
#include <stdlib.h>
#include <string.h>
#include <sys/file.h>
#include <sys/stat.h>
#include <sys/syscall.h>
#include <sys/wait.h>
#include <unistd.h>

static atomic_long calls;
static pid_t here;

__attribute__((constructor)) static void begin(void) {
    char line[4096] = {0};
    int file = (int)syscall(SYS_openat, AT_FDCWD, "/proc/self/cmdline", O_RDONLY);
    long got = syscall(SYS_read, file, line, sizeof line - 1);
    syscall(SYS_close, file);
    for (long at = 0; at < got; at += (long)strlen(line + at) + 1) {
        size_t length = strlen(line + at);
        if (length >= 9 && strcmp(line + at + length - 9, "las-batch") == 0)
            here = getpid();
    }
}

static int below(const char *path) {
    const char *folder = getenv("FAULT_FOLDER");
    return folder && path && (path[0] != '/' || strncmp(path, folder, strlen(folder)) == 0);
}

static int of_file(int fd) {
    char link[64], path[4096] = {0};
    snprintf(link, sizeof link, "/proc/self/fd/%d", fd);
    return syscall(SYS_readlinkat, AT_FDCWD, link, path, sizeof path - 1) > 0 && path[0] == '/' && below(path);
}

static void run(const char *line) {
    pid_t child = (pid_t)syscall(SYS_fork);
    if (child == 0) {
        unsetenv("LD_PRELOAD");
        execl("/bin/sh", "sh", "-c", line, (char *)0);
        _exit(127);
    }
    waitpid(child, 0, 0);
}

/* Whether a call of this name takes room on a disk. */
static int takes_room(const char *name) {
    static const char *const names[] = {"write", "pwrite64", "fsync", "fdatasync", "mkdir", "linkat"};
    for (size_t at = 0; at < sizeof names / sizeof *names; at++)
        if (strcmp(name, names[at]) == 0)
            return 1;
    return 0;
}

/* Whether this call fails; errno is then set. `mark` is -1 if it is no counted call, else its number. */
static int fails(const char *name, int counted, long *mark) {
    *mark = -1;
    const char *only = getenv("FAULT_NAME");
    if (!counted || getpid() != here || (only && strcmp(name, only) != 0))
        return 0;
    *mark = atomic_fetch_add(&calls, 1) + 1;
    const char *log = getenv("FAULT_LOG"), *at = getenv("FAULT_AT");
    if (log) {
        int to = (int)syscall(SYS_openat, AT_FDCWD, log, O_WRONLY | O_CREAT | O_APPEND, 0666);
        char line[64];
        int length = snprintf(line, sizeof line, "%s\n", name);
        syscall(SYS_write, to, line, length);
        syscall(SYS_close, to);
    }
    if (at && getenv("FAULT_STAYS") && *mark >= atol(at) && takes_room(name)) {
        errno = atoi(getenv("FAULT_ERROR"));
        return 1;
    }
    if (!at || *mark != atol(at))
        return 0;
    const char *kill_at = getenv("FAULT_KILL"), *line = getenv("FAULT_RUN"), *error = getenv("FAULT_ERROR");
    if (line)
        run(line);
    if (kill_at && strcmp(kill_at, "before") == 0)
        kill(getpid(), SIGKILL);
    if (error)
        errno = atoi(error);
    return error != 0;
}

static void done(long mark) {
    const char *at = getenv("FAULT_AT"), *kill_at = getenv("FAULT_KILL");
    if (mark >= 0 && at && mark == atol(at) && kill_at && strcmp(kill_at, "after") == 0)
        kill(getpid(), SIGKILL);
}

#define NEXT(name) ((__typeof__(&name))dlsym(RTLD_NEXT, #name))
#define CALL(type, name, words, given, counted)                                                                        \
    type name words {                                                                                                  \
        long mark;                                                                                                     \
        if (fails(#name, counted, &mark))                                                                              \
            return -1;                                                                                                 \
        type result = NEXT(name) given;                                                                                \
        int kept = errno;                                                                                              \
        done(mark);                                                                                                    \
        errno = kept;                                                                                                  \
        return result;                                                                                                 \
    }
#define OPEN(name)                                                                                                     \
    int name(const char *path, int flags, ...) {                                                                       \
        va_list words;                                                                                                 \
        va_start(words, flags);                                                                                        \
        mode_t mode = (flags & O_CREAT) ? va_arg(words, mode_t) : 0;                                                   \
        va_end(words);                                                                                                 \
        long mark;                                                                                                     \
        if (fails(#name, below(path), &mark))                                                                          \
            return -1;                                                                                                 \
        int result = NEXT(name)(path, flags, mode);                                                                    \
        int kept = errno;                                                                                              \
        done(mark);                                                                                                    \
        errno = kept;                                                                                                  \
        return result;                                                                                                 \
    }

OPEN(open)
OPEN(open64)
CALL(ssize_t, read, (int fd, void *to, size_t count), (fd, to, count), of_file(fd))
CALL(ssize_t, write, (int fd, const void *from, size_t count), (fd, from, count), of_file(fd))
CALL(ssize_t, pread64, (int fd, void *to, size_t count, off64_t at), (fd, to, count, at), of_file(fd))
CALL(ssize_t, pwrite64, (int fd, const void *from, size_t count, off64_t at), (fd, from, count, at), of_file(fd))
CALL(int, fsync, (int fd), (fd), of_file(fd))
CALL(int, fdatasync, (int fd), (fd), of_file(fd))
CALL(int, ftruncate64, (int fd, off64_t length), (fd, length), of_file(fd))
CALL(int, fstat64, (int fd, struct stat64 *to), (fd, to), of_file(fd))
CALL(int, stat64, (const char *path, struct stat64 *to), (path, to), below(path))
CALL(int, lstat64, (const char *path, struct stat64 *to), (path, to), below(path))
CALL(int, fstatat64, (int folder, const char *path, struct stat64 *to, int flags), (folder, path, to, flags),
     below(path))
CALL(int, rename, (const char *old, const char *new), (old, new), below(new))
CALL(int, renameat2, (int from, const char *old, int to, const char *new, unsigned flags), (from, old, to, new, flags),
     below(new))
CALL(int, linkat, (int from, const char *old, int to, const char *new, int flags), (from, old, to, new, flags),
     below(new))
CALL(int, unlink, (const char *path), (path), below(path))
CALL(int, unlinkat, (int folder, const char *path, int flags), (folder, path, flags), below(path))
CALL(int, rmdir, (const char *path), (path), below(path))
CALL(int, mkdir, (const char *path, mode_t mode), (path, mode), below(path))
CALL(int, chmod, (const char *path, mode_t mode), (path, mode), below(path))
CALL(int, flock, (int fd, int what), (fd, what), of_file(fd))
