/* The numbers and layouts of the C library and of Linux that stand in the compiled program, as the kit writes them in
 * rattle/libc/src/lib.rt and types.rt, and std_io in src/io/kind.rt. The program holds them as they are here, whatever
 * the system, so this has to compile for each system that it is released for. Nothing of it is linked. */
#define _GNU_SOURCE
#include <errno.h>
#include <fcntl.h>
#include <limits.h>
#include <pthread.h>
#include <signal.h>
#include <stddef.h>
#include <sys/file.h>
#include <sys/stat.h>
#include <sys/types.h>
#include <unistd.h>

#define IS(what, value) _Static_assert((what) == (value), #what " is not " #value)
#define STANDS_AT(field, place) IS(offsetof(struct statx, field), place)

/* a machine of 64 bits that stores the lowest byte first */
IS(__BYTE_ORDER__, __ORDER_LITTLE_ENDIAN__);
IS(sizeof(void *), 8);
IS(sizeof(size_t), 8);
IS(sizeof(int), 4);

/* open, pipe2, unlink and their kin */
IS(O_RDONLY, 0);
IS(O_WRONLY, 1);
IS(O_RDWR, 2);
IS(O_CREAT, 0100);
IS(O_EXCL, 0200);
IS(O_NOCTTY, 0400);
IS(O_TRUNC, 01000);
IS(O_APPEND, 02000);
IS(O_NONBLOCK, 04000);
IS(O_CLOEXEC, 02000000);
IS(sizeof(mode_t), 4);
IS(sizeof(off_t), 8);
IS(PATH_MAX, 4096);

/* flock */
IS(LOCK_SH, 1);
IS(LOCK_EX, 2);
IS(LOCK_NB, 4);
IS(LOCK_UN, 8);

/* fchown and getpid */
IS(sizeof(uid_t), 4);
IS(sizeof(gid_t), 4);
IS(sizeof(pid_t), 4);

/* statx: the fields that are read, and what is asked for */
IS(AT_FDCWD, -100);
IS(AT_SYMLINK_NOFOLLOW, 0x100);
IS(AT_EMPTY_PATH, 0x1000);
IS(STATX_BASIC_STATS, 0x7ff);
IS(STATX_BTIME, 0x800);
IS(sizeof(struct statx), 256);
STANDS_AT(stx_mask, 0);
STANDS_AT(stx_nlink, 16);
STANDS_AT(stx_uid, 20);
STANDS_AT(stx_gid, 24);
STANDS_AT(stx_mode, 28);
STANDS_AT(stx_ino, 32);
STANDS_AT(stx_size, 40);
STANDS_AT(stx_atime, 64);
STANDS_AT(stx_btime, 80);
STANDS_AT(stx_ctime, 96);
STANDS_AT(stx_mtime, 112);
STANDS_AT(stx_dev_major, 136);
STANDS_AT(stx_dev_minor, 140);
IS(offsetof(struct statx_timestamp, tv_nsec), 8);
IS(sizeof(struct statx_timestamp), 16);
IS(S_IFMT, 0170000);
IS(S_IFREG, 0100000);
IS(S_IFDIR, 0040000);
IS(S_IFLNK, 0120000);
IS(S_IFIFO, 0010000);
IS(S_IFCHR, 0020000);
IS(S_IFBLK, 0060000);
IS(S_IFSOCK, 0140000);

/* the start: a broken pipe is an error of write, and no signal */
IS(SIGPIPE, 13);
_Static_assert(SIG_IGN == (void (*)(int))1, "SIG_IGN is not 1");

/* threads: the program keeps 64 bytes for the attributes */
IS(sizeof(pthread_t), 8);
_Static_assert(sizeof(pthread_attr_t) <= 64 && _Alignof(pthread_attr_t) <= 8, "pthread_attr_t has more than its place");

/* what each error means */
IS(EPERM, 1);
IS(ENOENT, 2);
IS(EINTR, 4);
IS(EIO, 5);
IS(E2BIG, 7);
IS(EBADF, 9);
IS(EAGAIN, 11);
IS(ENOMEM, 12);
IS(EACCES, 13);
IS(EBUSY, 16);
IS(EEXIST, 17);
IS(EXDEV, 18);
IS(ENOTDIR, 20);
IS(EISDIR, 21);
IS(EINVAL, 22);
IS(ENFILE, 23);
IS(EMFILE, 24);
IS(ETXTBSY, 26);
IS(EFBIG, 27);
IS(ENOSPC, 28);
IS(ESPIPE, 29);
IS(EROFS, 30);
IS(EMLINK, 31);
IS(EPIPE, 32);
IS(EDEADLK, 35);
IS(ENAMETOOLONG, 36);
IS(ENOSYS, 38);
IS(ENOTEMPTY, 39);
IS(ELOOP, 40);
IS(EOVERFLOW, 75);
IS(EOPNOTSUPP, 95);
IS(ETIMEDOUT, 110);
IS(ESTALE, 116);
IS(EDQUOT, 122);
