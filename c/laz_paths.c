/* Readers and writers of files by their names, with threads of POSIX. */
#define _GNU_SOURCE
#include "laz_file.h"
#include <errno.h>
#include <fcntl.h>
#include <limits.h>
#include <pthread.h>
#include <stdio.h>
#include <sys/stat.h>
#include <unistd.h>

#ifdef LAZ_OLD_GLIBC
/* The shared library runs with a C library of 2011 too: these calls by the versions that it had then. For aarch64 the
   first one is of 2012, and the version of `struct stat` is 0. */
#ifdef __aarch64__
#define FIRST_GLIBC "GLIBC_2.17"
#define STAT_VERSION 0
#else
#define FIRST_GLIBC "GLIBC_2.2.5"
#define STAT_VERSION 1
#endif
__asm__(".symver pthread_create, pthread_create@" FIRST_GLIBC);
__asm__(".symver pthread_join, pthread_join@" FIRST_GLIBC);
int old_fstat(int version, int descriptor, struct stat *status);
__asm__(".symver old_fstat, __fxstat@" FIRST_GLIBC);
#define status_of(descriptor, status) old_fstat(STAT_VERSION, descriptor, status)
#else
#define status_of(descriptor, status) fstat(descriptor, status)
#endif

#define MOST_AT_ONCE ((size_t)1 << 30)
#define LONGEST_NAME 255

/* A file that is open, and what becomes of it at the end. */
struct file {
    int descriptor;
    int folder;         /* that of a file that is written; else -1 */
    int is_new;         /* whether there was no older file */
    struct stat older;
    char draft[LONGEST_NAME + 1];
    char name[LONGEST_NAME + 1];
    char *path;
};

static int read_file(void *context, uint64_t at, uint8_t *bytes, size_t length)
{
    const struct file *file = context;
    while (length > 0) {
        ssize_t got = pread(file->descriptor, bytes, length < MOST_AT_ONCE ? length : MOST_AT_ONCE, (off_t)at);
        if (got < 0 && errno == EINTR)
            continue;
        if (got <= 0)
            return got == 0 ? EIO : errno; /* it became shorter */
        bytes += got;
        at += (uint64_t)got;
        length -= (size_t)got;
    }
    return 0;
}

static int write_file(void *context, uint64_t at, const uint8_t *bytes, size_t length)
{
    const struct file *file = context;
    while (length > 0) {
        ssize_t put = pwrite(file->descriptor, bytes, length < MOST_AT_ONCE ? length : MOST_AT_ONCE, (off_t)at);
        if (put < 0 && errno == EINTR)
            continue;
        if (put <= 0)
            return put == 0 ? EIO : errno;
        bytes += put;
        at += (uint64_t)put;
        length -= (size_t)put;
    }
    return 0;
}

static int end_reading(void *context, int whole)
{
    struct file *file = context;
    (void)whole;
    close(file->descriptor);
    free(file);
    return 0;
}

/* Gives the draft the mode of an older file, and its owner and group where the system allows. */
static int keep_mode(const struct file *file)
{
    struct stat made;
    if (file->is_new)
        return 0;
    if (status_of(file->descriptor, &made) != 0)
        return errno;
    if ((made.st_uid != file->older.st_uid || made.st_gid != file->older.st_gid)
        && fchown(file->descriptor, file->older.st_uid, file->older.st_gid) != 0 && errno != EPERM)
        return errno;
    return fchmod(file->descriptor, file->older.st_mode & 07777) == 0 ? 0 : errno;
}

/* Syncs the draft and moves it to its name. */
static int move_draft(const struct file *file)
{
    int said = keep_mode(file);
    if (said == 0 && fsync(file->descriptor) != 0)
        said = errno;
    if (said == 0 && renameat(file->folder, file->draft, file->folder, file->name) != 0)
        said = errno;
    if (said != 0)
        unlinkat(file->folder, file->draft, 0);
    else if (fsync(file->folder) != 0)
        said = errno;
    return said;
}

static int end_writing(void *context, int whole)
{
    struct file *file = context;
    int said = 0;
    if (whole)
        said = move_draft(file);
    else
        unlinkat(file->folder, file->draft, 0);
    close(file->descriptor);
    close(file->folder);
    free(file->path);
    free(file);
    return said;
}

/* The jobs that threads share, each taking the next number. */
struct jobs {
    void (*job)(void *argument, size_t number);
    void *argument;
    size_t count;
    _Atomic size_t next;
};

static void *work(void *context)
{
    struct jobs *jobs = context;
    size_t number;
    while ((number = jobs->next++) < jobs->count)
        jobs->job(jobs->argument, number);
    return NULL;
}

/* Runs jobs by the calling thread and others, as many as can be started. The number of threads is that of `context`. */
static void run(void *context, void (*job)(void *argument, size_t number), void *argument, size_t count)
{
    struct jobs jobs = {job, argument, count, 0};
    pthread_t threads[MAX_THREADS];
    size_t wanted = (size_t)(uintptr_t)context, started = 0;
    wanted = count < wanted ? count : wanted;
    while (started + 1 < wanted && pthread_create(&threads[started], NULL, work, &jobs) == 0)
        started++;
    work(&jobs);
    while (started > 0)
        pthread_join(threads[--started], NULL);
}

static struct laz_pool pool_of(unsigned threads)
{
    struct laz_pool pool = {(void *)(uintptr_t)threads, threads, run};
    return pool;
}

/* Opens a regular file, and nothing else: to open a FIFO would wait, and to open a device may do something. */
static int open_regular(int folder, const char *name, struct stat *status)
{
    int descriptor = openat(folder, name, O_RDONLY | O_CLOEXEC | O_NOCTTY | O_NONBLOCK);
    int said = descriptor < 0 ? errno : 0;
    if (said == 0 && status_of(descriptor, status) != 0)
        said = errno;
    if (said == 0 && !S_ISREG(status->st_mode))
        said = S_ISDIR(status->st_mode) ? EISDIR : EINVAL;
    if (said != 0 && descriptor >= 0)
        close(descriptor);
    errno = said;
    return said == 0 ? descriptor : -1;
}

uint32_t laz_reader_open_path(const char *name, unsigned threads, laz_reader **reader, struct laz_error *error)
{
    struct laz_pool pool = pool_of(threads);
    struct stat status;
    struct file *file;
    struct laz_io io = {NULL, 0, read_file, NULL, end_reading};
    *reader = NULL;
    if (name == NULL || !is_pool(&pool))
        return wrong(error);
    file = calloc(1, sizeof *file);
    if (file == NULL)
        return no_memory(error);
    file->descriptor = open_regular(AT_FDCWD, name, &status);
    if (file->descriptor < 0) {
        int said = errno;
        free(file);
        return failed(error, LAZ_READ_FAILED, 0, LAZ_NO_CHUNK, said);
    }
    io.context = file;
    io.size = (uint64_t)status.st_size;
    return laz_reader_open(&io, &pool, reader, error);
}

/* Splits the path of a file into its folder, which is opened, and its name. */
static int open_folder(struct file *file, const char *name)
{
    char *slash, *last;
    file->path = realpath(name, NULL);
    file->is_new = file->path == NULL;
    if (file->path == NULL && errno == ENOENT)
        file->path = strdup(name);
    if (file->path == NULL)
        return errno;
    slash = strrchr(file->path, '/');
    last = slash == NULL ? file->path : slash + 1;
    if (strlen(last) > LONGEST_NAME || *last == 0)
        return *last == 0 ? EISDIR : ENAMETOOLONG;
    memcpy(file->name, last, strlen(last) + 1);
    if (slash != NULL)
        last[slash == file->path ? 0 : -1] = 0;
    file->folder = open(slash == NULL ? "." : file->path, O_RDONLY | O_DIRECTORY | O_CLOEXEC);
    return file->folder < 0 ? errno : 0;
}

/* Looks at an older file without opening it for anything. */
static int look_at_older(struct file *file)
{
    int descriptor = openat(file->folder, file->name, O_PATH | O_NOFOLLOW | O_CLOEXEC);
    int said = 0;
    if (descriptor < 0) {
        file->is_new = errno == ENOENT;
        return file->is_new ? 0 : errno;
    }
    file->is_new = 0;
    if (status_of(descriptor, &file->older) != 0)
        said = errno;
    else if (!S_ISREG(file->older.st_mode)) /* a link that leads nowhere is not written through either */
        said = S_ISDIR(file->older.st_mode) ? EISDIR : EINVAL;
    close(descriptor);
    return said;
}

/* Creates the draft, under a hidden name that can't be foreseen. */
static int open_draft(struct file *file)
{
    uint8_t random[8];
    static const char digits[] = "0123456789abcdef", end[] = ".part";
    int source = open("/dev/urandom", O_RDONLY | O_CLOEXEC);
    size_t kept = strlen(file->name), most = LONGEST_NAME - 2 - 2 * sizeof random - (sizeof end - 1), at = 0;
    if (source < 0)
        return errno;
    if (read(source, random, sizeof random) != (ssize_t)sizeof random) {
        close(source);
        return EIO;
    }
    close(source);
    kept = kept < most ? kept : most;
    file->draft[at++] = '.';
    memcpy(file->draft + at, file->name, kept);
    at += kept;
    file->draft[at++] = '.';
    for (size_t i = 0; i < sizeof random; i++) {
        file->draft[at++] = digits[random[i] >> 4];
        file->draft[at++] = digits[random[i] & 15];
    }
    memcpy(file->draft + at, end, sizeof end);
    file->descriptor = openat(file->folder, file->draft, O_WRONLY | O_CREAT | O_EXCL | O_NOFOLLOW | O_CLOEXEC, 0666);
    return file->descriptor < 0 ? errno : 0;
}

uint32_t laz_writer_create_path(const char *name, unsigned threads, const uint8_t *head, size_t length, uint32_t chunk,
                                uint32_t sets, laz_writer **writer, struct laz_error *error)
{
    struct laz_pool pool = pool_of(threads);
    struct laz_io io = {NULL, 0, NULL, write_file, end_writing};
    struct file *file;
    uint32_t answer;
    int said;
    *writer = NULL;
    if (name == NULL || !is_pool(&pool))
        return wrong(error);
    file = calloc(1, sizeof *file);
    if (file == NULL)
        return no_memory(error);
    file->folder = -1;
    said = open_folder(file, name);
    if (said == 0)
        said = look_at_older(file);
    if (said == 0)
        said = open_draft(file);
    if (said != 0) {
        if (file->folder >= 0)
            close(file->folder);
        free(file->path);
        free(file);
        return failed(error, LAZ_WRITE_FAILED, 0, LAZ_NO_CHUNK, said);
    }
    io.context = file;
    answer = laz_writer_create(&io, &pool, head, length, chunk, sets, writer, error);
    if (answer == LAZ_WRONG)
        end_writing(file, 0);
    return answer;
}
