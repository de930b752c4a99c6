/* Loaded into a program by LD_PRELOAD: writes down each call that changes files below a folder, makes one of them fail, or
 * kills the program there.
 *
 * CALLS_BELOW  the folder
 * CALLS_LOG    a file that gets a line for each call: its kind, the inode of what it is about, and what else it says
 * CALLS_AT     which of the calls, counted from 1
 * CALLS_HOW    what becomes of that one: fails, before (the program dies before it), after; full: from it on each call
 *              that takes room on a disk fails, to the end
 * CALLS_ERROR  the number of the error of a call that fails
 *
 * Close is done even if it is made to fail, as Linux does it.
 */
#define _GNU_SOURCE
#include <dlfcn.h>
#include <errno.h>
#include <fcntl.h>
#include <signal.h>
#include <stdarg.h>
#include <stdatomic.h>
#include <stdio.h>
#include <stdlib.h>
#include <string.h>
#include <sys/stat.h>
#include <sys/syscall.h>
#include <sys/uio.h>
#include <unistd.h>

static atomic_long calls;

static const char *setting(const char *name) {
    const char *text = getenv(name);
    return text ? text : "";
}

/* The whole path of a name, as a call takes it. */
static void whole_path(int folder, const char *name, char *path, size_t room) {
    ssize_t length = 0;
    if (name[0] != '/') {
        char link[64];
        snprintf(link, sizeof link, folder == AT_FDCWD ? "/proc/self/cwd" : "/proc/self/fd/%d", folder);
        length = syscall(SYS_readlink, link, path, room - 1);
        if (length < 0)
            length = 0;
        path[length++] = '/';
    }
    snprintf(path + length, room - (size_t)length, "%s", name);
}

static int is_below(const char *path) {
    const char *folder = setting("CALLS_BELOW");
    size_t length = strlen(folder);
    return length > 0 && strncmp(path, folder, length) == 0 && (path[length] == '/' || path[length] == 0);
}

static int fd_is_below(int fd) {
    char link[64], path[4096];
    snprintf(link, sizeof link, "/proc/self/fd/%d", fd);
    ssize_t length = syscall(SYS_readlink, link, path, sizeof path - 1);
    if (length <= 0)
        return 0;
    path[length] = 0;
    return is_below(path);
}

static unsigned long inode(int fd) {
    struct stat found;
    return fstat(fd, &found) == 0 ? (unsigned long)found.st_ino : 0;
}

static void say(const char *line, size_t length) {
    int log = (int)syscall(SYS_openat, AT_FDCWD, setting("CALLS_LOG"), O_WRONLY | O_CREAT | O_APPEND | O_CLOEXEC, 0666);
    if (log < 0)
        return;
    (void)!syscall(SYS_write, log, line, length);
    syscall(SYS_close, log);
}

/* Counts a call; 1 if it is to fail, with errno set. Dies here if that is asked for. */
static int counted(int takes_room) {
    long number = atomic_fetch_add(&calls, 1) + 1, at = atol(setting("CALLS_AT"));
    if (strcmp(setting("CALLS_HOW"), "full") == 0 && at > 0 && number >= at && takes_room) {
        errno = ENOSPC;
        return 1;
    }
    if (number != at)
        return 0;
    if (strcmp(setting("CALLS_HOW"), "before") == 0)
        raise(SIGKILL);
    if (strcmp(setting("CALLS_HOW"), "fails") != 0)
        return 0;
    errno = atoi(setting("CALLS_ERROR"));
    return 1;
}

static void done(void) {
    if (atomic_load(&calls) == atol(setting("CALLS_AT")) && strcmp(setting("CALLS_HOW"), "after") == 0)
        raise(SIGKILL);
}

static void tell(const char *kind, unsigned long number, const char *more) {
    char line[9000];
    int kept = errno, length = snprintf(line, sizeof line, "%s\t%lu\t%s\n", kind, number, more);
    say(line, (size_t)length);
    errno = kept;
    done();
}

static void tell_bytes(int fd, const void *bytes, size_t count, off_t at) {
    size_t room = 2 * count + 128;
    char *line = malloc(room);
    int length = snprintf(line, room, "write\t%lu\t%lld\t", inode(fd), (long long)at);
    for (size_t i = 0; i < count; i++)
        length += snprintf(line + length, room - (size_t)length, "%02x", ((const unsigned char *)bytes)[i]);
    line[length++] = '\n';
    say(line, (size_t)length);
    free(line);
    done();
}

static int opened(int folder, const char *name, int flags, mode_t mode) {
    char path[8192];
    whole_path(folder, name, path, sizeof path);
    int watched = is_below(path) && (flags & (O_WRONLY | O_RDWR | O_CREAT | O_DIRECTORY));
    int is_new = syscall(SYS_faccessat, folder, name, F_OK) != 0;
    if (watched && counted((flags & O_CREAT) && is_new))
        return -1;
    int fd = (int)syscall(SYS_openat, folder, name, flags, mode);
    struct stat found;
    if (watched && fd >= 0 && fstat(fd, &found) == 0) {
        size_t length = strlen(path);
        snprintf(path + length, sizeof path - length, "\t%o", found.st_mode & 0777);
        tell(is_new ? "create" : flags & O_TRUNC ? "cut" : "open", (unsigned long)found.st_ino, path);
    }
    return fd;
}

#define OPENS(name)                                                                                                   \
    int name(const char *path, int flags, ...) {                                                                      \
        va_list more;                                                                                                 \
        va_start(more, flags);                                                                                        \
        mode_t mode = (flags & (O_CREAT | O_TMPFILE)) ? va_arg(more, mode_t) : 0;                                     \
        va_end(more);                                                                                                 \
        return opened(AT_FDCWD, path, flags, mode);                                                                   \
    }
#define OPENS_AT(name)                                                                                                \
    int name(int folder, const char *path, int flags, ...) {                                                          \
        va_list more;                                                                                                 \
        va_start(more, flags);                                                                                        \
        mode_t mode = (flags & (O_CREAT | O_TMPFILE)) ? va_arg(more, mode_t) : 0;                                     \
        va_end(more);                                                                                                 \
        return opened(folder, path, flags, mode);                                                                     \
    }
OPENS(open)
OPENS(open64)
OPENS_AT(openat)
OPENS_AT(openat64)

ssize_t write(int fd, const void *bytes, size_t count) {
    int watched = fd_is_below(fd);
    if (watched && counted(1))
        return -1;
    off_t at = watched ? (off_t)syscall(SYS_lseek, fd, 0, SEEK_CUR) : 0;
    ssize_t put = syscall(SYS_write, fd, bytes, count);
    if (watched && put >= 0)
        tell_bytes(fd, bytes, (size_t)put, at);
    return put;
}

static ssize_t put_at(int fd, const void *bytes, size_t count, off_t at) {
    int watched = fd_is_below(fd);
    if (watched && counted(1))
        return -1;
    ssize_t put = syscall(SYS_pwrite64, fd, bytes, count, at);
    if (watched && put >= 0)
        tell_bytes(fd, bytes, (size_t)put, at);
    return put;
}
ssize_t pwrite(int fd, const void *bytes, size_t count, off_t at) { return put_at(fd, bytes, count, at); }
ssize_t pwrite64(int fd, const void *bytes, size_t count, off_t at) { return put_at(fd, bytes, count, at); }

/* So that a copy is read and written, and the bytes are known. */
ssize_t copy_file_range(int from, off64_t *at, int to, off64_t *to_at, size_t count, unsigned flags) {
    if (!fd_is_below(to))
        return syscall(SYS_copy_file_range, from, at, to, to_at, count, flags);
    errno = ENOSYS;
    return -1;
}

static int on_fd(const char *kind, int fd, long call, const char *more, long first, long second) {
    int watched = fd_is_below(fd);
    unsigned long number = watched ? inode(fd) : 0;
    if (watched && counted(call == SYS_fsync || call == SYS_fdatasync || call == SYS_ftruncate)) {
        if (call == SYS_close)
            syscall(SYS_close, fd);
        return -1;
    }
    int answer = (int)syscall(call, fd, first, second);
    if (watched && answer == 0)
        tell(kind, number, more);
    return answer;
}
int fsync(int fd) { return on_fd("sync", fd, SYS_fsync, "", 0, 0); }
int fdatasync(int fd) { return on_fd("sync", fd, SYS_fdatasync, "", 0, 0); }
int fchmod(int fd, mode_t mode) {
    char more[32];
    snprintf(more, sizeof more, "\t%o", mode);
    return on_fd("mode", fd, SYS_fchmod, more, (long)mode, 0);
}
int fchown(int fd, uid_t user, gid_t group) { return on_fd("owner", fd, SYS_fchown, "", (long)user, (long)group); }
int close(int fd) { return on_fd("close", fd, SYS_close, "", 0, 0); }
static int cut_to(int fd, off_t length) {
    char more[32];
    snprintf(more, sizeof more, "%lld", (long long)length);
    return on_fd("length", fd, SYS_ftruncate, more, (long)length, 0);
}
int ftruncate(int fd, off_t length) { return cut_to(fd, length); }
int ftruncate64(int fd, off_t length) { return cut_to(fd, length); }

static int moved(int from, const char *name, int to, const char *new_name, unsigned flags) {
    char more[8192];
    whole_path(from, name, more, 4000);
    int watched = is_below(more);
    if (watched && counted(0))
        return -1;
    size_t length = strlen(more);
    more[length++] = '\t';
    whole_path(to, new_name, more + length, 4000);
    int answer = (int)syscall(SYS_renameat2, from, name, to, new_name, flags);
    if (watched && answer == 0)
        tell("move", 0, more);
    return answer;
}
int rename(const char *from, const char *to) { return moved(AT_FDCWD, from, AT_FDCWD, to, 0); }
int renameat(int a, const char *from, int b, const char *to) { return moved(a, from, b, to, 0); }
int renameat2(int a, const char *from, int b, const char *to, unsigned flags) { return moved(a, from, b, to, flags); }

static int removed(int folder, const char *name, int flags) {
    char path[8192];
    whole_path(folder, name, path, sizeof path);
    int watched = is_below(path);
    if (watched && counted(0))
        return -1;
    int answer = (int)syscall(SYS_unlinkat, folder, name, flags);
    if (watched && answer == 0)
        tell("remove", 0, path);
    return answer;
}
int unlink(const char *name) { return removed(AT_FDCWD, name, 0); }
int remove(const char *name) { return removed(AT_FDCWD, name, 0); }
int unlinkat(int folder, const char *name, int flags) { return removed(folder, name, flags); }

/* Calls that make or take away a folder or a symbolic link, or change a mode by a name. */
static int on_name(const char *kind, int folder, const char *name, long call, long first, const char *more) {
    char line[8192];
    struct stat found;
    whole_path(folder, name, line, 4000);
    int watched = is_below(line);
    if (watched && counted(call != SYS_fchmodat))
        return -1;
    int answer = call == SYS_symlinkat ? (int)syscall(call, more, folder, name) : (int)syscall(call, folder, name, first);
    if (watched && answer == 0) {
        size_t length = strlen(line);
        snprintf(line + length, sizeof line - length, "\t%s", more);
        int known = fstatat(folder, name, &found, AT_SYMLINK_NOFOLLOW) == 0;
        tell(kind, known ? (unsigned long)found.st_ino : 0, line);
    }
    return answer;
}
static int new_folder(int folder, const char *name, mode_t mode) {
    return on_name("folder", folder, name, SYS_mkdirat, (long)mode, "");
}
int mkdir(const char *name, mode_t mode) { return new_folder(AT_FDCWD, name, mode); }
int mkdirat(int folder, const char *name, mode_t mode) { return new_folder(folder, name, mode); }
int rmdir(const char *name) { return removed(AT_FDCWD, name, AT_REMOVEDIR); }
int symlink(const char *to, const char *name) { return on_name("link", AT_FDCWD, name, SYS_symlinkat, 0, to); }
int symlinkat(const char *to, int folder, const char *name) {
    return on_name("link", folder, name, SYS_symlinkat, 0, to);
}
static int new_mode(int folder, const char *name, mode_t mode) {
    char more[32];
    snprintf(more, sizeof more, "%o", mode);
    return on_name("mode", folder, name, SYS_fchmodat, (long)mode, more);
}
int chmod(const char *name, mode_t mode) { return new_mode(AT_FDCWD, name, mode); }
int fchmodat(int folder, const char *name, mode_t mode, int flags) { (void)flags; return new_mode(folder, name, mode); }
