/*
 * Reads and writes whole files by the calls of las.h, for the repository's checks.
 *
 *   check_files copy IN OUT CHUNK SETS THREADS BATCH   copies a file, BATCH records at a time
 *   check_files range IN OUT START STOP THREADS        writes the records of a range as they stand
 *   check_files all THREADS                            reads names from standard input, one a line, and unpacks each
 *                                                      file to NAME.out; prints 0, the cause, or `plain`, one a line
 *   check_files failing IN CHUNK                       each allocation and each call of a file fails in turn, in memory
 *   check_files wrong IN                               wrong arguments
 */
#define _GNU_SOURCE
#include "las.h"
#include <stdio.h>
#include <stdlib.h>
#include <string.h>

/* Which allocation fails, counted from 1; none if it is 0. The linker sends the calls here. */
static unsigned long fails_at, asked;
void *__real_malloc(size_t size);
void *__real_calloc(size_t count, size_t size);
void *__real_realloc(void *block, size_t size);
void *__wrap_malloc(size_t size);
void *__wrap_calloc(size_t count, size_t size);
void *__wrap_realloc(void *block, size_t size);

static int fails(void) { return fails_at != 0 && ++asked == fails_at; }
void *__wrap_malloc(size_t size) { return fails() ? NULL : __real_malloc(size); }
void *__wrap_calloc(size_t count, size_t size) { return fails() ? NULL : __real_calloc(count, size); }
void *__wrap_realloc(void *block, size_t size) { return fails() ? NULL : __real_realloc(block, size); }

static _Noreturn void fail(const char *what)
{
    fprintf(stderr, "check_files: %s\n", what);
    exit(9);
}

static int ended(const struct laz_error *error, const char *name)
{
    char text[300];
    if (error->answer == LAZ_DONE)
        return 0;
    laz_error_text(error, name, text, sizeof text);
    fprintf(stderr, "%s\n", text);
    return (int)error->answer;
}

/* Copies all records of a reader to a writer. */
static int copy_records(laz_reader *reader, laz_writer *writer, uint32_t batch, struct laz_error *error)
{
    uint8_t *records = malloc((size_t)batch * laz_reader_head(reader)->record_length);
    uint32_t count = 1, answer = records == NULL ? LAZ_NO_MEMORY : LAZ_DONE;
    if (records == NULL)
        error->answer = LAZ_NO_MEMORY;
    while (answer == LAZ_DONE && count > 0) {
        answer = laz_reader_next(reader, records, batch, &count, error);
        if (answer == LAZ_DONE)
            answer = laz_writer_put(writer, records, count, error);
    }
    free(records);
    return (int)answer;
}

static int copy(char **words)
{
    unsigned threads = (unsigned)atoi(words[4]);
    laz_reader *reader;
    laz_writer *writer = NULL;
    struct laz_error error;
    size_t length;
    const uint8_t *head;
    if (laz_reader_open_path(words[0], threads, &reader, &error) != LAZ_DONE)
        return ended(&error, words[0]);
    head = laz_reader_plain_head(reader, &length);
    if (laz_writer_create_path(words[1], threads, head, length, (uint32_t)atol(words[2]), (uint32_t)atol(words[3]),
                               &writer, &error) == LAZ_DONE
        && copy_records(reader, writer, (uint32_t)atol(words[5]), &error) == LAZ_DONE)
        laz_writer_finish(writer, &error);
    laz_writer_close(writer);
    laz_reader_close(reader);
    return ended(&error, words[0]);
}

static int range(char **words)
{
    uint32_t start = (uint32_t)atol(words[2]), stop = (uint32_t)atol(words[3]), whole;
    laz_reader *reader;
    struct laz_error error;
    uint8_t *records;
    size_t size;
    FILE *out;
    if (laz_reader_open_path(words[0], (unsigned)atoi(words[4]), &reader, &error) != LAZ_DONE)
        return ended(&error, words[0]);
    size = laz_reader_head(reader)->record_length;
    records = malloc(size * (stop - start) + 1);
    out = fopen(words[1], "wb");
    if (records == NULL || out == NULL)
        fail(words[1]);
    laz_reader_records(reader, start, stop, records, &whole, &error);
    if (fwrite(records, size, whole, out) != whole || fclose(out) != 0)
        fail(words[1]);
    free(records);
    laz_reader_close(reader);
    return ended(&error, words[0]);
}

/* Unpacks a file to NAME.out, and prints how that ends. */
static void unpack(const char *name, unsigned threads)
{
    laz_reader *reader;
    laz_writer *writer = NULL;
    struct laz_error error;
    char other[4096];
    size_t length;
    const uint8_t *head;
    if (snprintf(other, sizeof other, "%s.out", name) >= (int)sizeof other)
        fail(name);
    laz_reader_open_path(name, threads, &reader, &error);
    if (reader != NULL && laz_reader_head(reader)->chunk == 0)
        puts("plain");
    else if (reader != NULL) {
        head = laz_reader_plain_head(reader, &length);
        if (laz_writer_create_path(other, threads, head, length, 0, 0, &writer, &error) == LAZ_DONE
            && copy_records(reader, writer, 11, &error) == LAZ_DONE)
            laz_writer_finish(writer, &error);
        laz_writer_close(writer);
    }
    if (error.answer == LAZ_BAD && error.chunk != LAZ_NO_CHUNK)
        printf("%u %u\n", (unsigned)error.cause, (unsigned)error.chunk);
    else if (error.answer == LAZ_BAD)
        printf("%u\n", (unsigned)error.cause);
    else if (error.answer != LAZ_DONE)
        fail("a call answered something else");
    else if (laz_reader_head(reader)->chunk != 0)
        puts("0");
    laz_reader_close(reader);
}

static int unpack_all(unsigned threads)
{
    char line[4000];
    while (fgets(line, sizeof line, stdin) != NULL) {
        line[strcspn(line, "\n")] = 0;
        unpack(line, threads);
    }
    return 0;
}

/* A file in memory, of which one call fails. */
struct memory {
    uint8_t *bytes;
    size_t length, room;
    unsigned long calls, fails;
    int ends, whole;
};

static int read_memory(void *context, uint64_t at, uint8_t *bytes, size_t length)
{
    struct memory *memory = context;
    if (++memory->calls == memory->fails)
        return 77;
    if (at > memory->length || length > memory->length - at)
        fail("it reads past the end");
    memcpy(bytes, memory->bytes + at, length);
    return 0;
}

static int write_memory(void *context, uint64_t at, const uint8_t *bytes, size_t length)
{
    struct memory *memory = context;
    if (++memory->calls == memory->fails)
        return 78;
    if (at > memory->length || length > memory->room - at)
        fail("it writes out of order, or too much");
    memcpy(memory->bytes + at, bytes, length);
    if (at + length > memory->length)
        memory->length = (size_t)at + length;
    return 0;
}

static int end_memory(void *context, int whole)
{
    struct memory *memory = context;
    memory->ends++;
    memory->whole = whole;
    return whole && ++memory->calls == memory->fails ? 79 : 0;
}

/* Threads that do their jobs from the last one to the first. */
static void run_backwards(void *context, void (*job)(void *argument, size_t number), void *argument, size_t count)
{
    (void)context;
    while (count > 0)
        job(argument, --count);
}

/* Copies a file in memory; answers what the calls answered. */
static uint32_t copy_memory(struct memory *in, struct memory *out, uint32_t chunk, struct laz_error *error)
{
    struct laz_io from = {in, in->length, read_memory, NULL, end_memory}, to = {out, 0, NULL, write_memory, end_memory};
    struct laz_pool pool = {NULL, 3, run_backwards};
    laz_reader *reader;
    laz_writer *writer = NULL;
    size_t length;
    uint32_t answer = laz_reader_open(&from, &pool, &reader, error);
    if (answer == LAZ_DONE) {
        const uint8_t *head = laz_reader_plain_head(reader, &length);
        answer = laz_writer_create(&to, &pool, head, length, chunk, LAZ_SETS_COUNTS | LAZ_SETS_BOX, &writer, error);
    }
    if (answer == LAZ_DONE)
        answer = (uint32_t)copy_records(reader, writer, 100, error);
    if (answer == LAZ_DONE)
        answer = laz_writer_finish(writer, error);
    laz_writer_close(writer);
    laz_reader_close(reader);
    return answer;
}

static struct memory file_of(const char *name)
{
    struct memory file = {NULL, 0, 1 << 22, 0, 0, 0, 0};
    FILE *stream = fopen(name, "rb");
    file.bytes = malloc(file.room);
    if (stream == NULL || file.bytes == NULL) {
        free(file.bytes);
        fail(name);
    }
    file.length = fread(file.bytes, 1, file.room, stream);
    fclose(stream);
    return file;
}

/* One trial in which something fails: what is answered, and that each end was told once. */
static int trial(struct memory *in, struct memory *out, uint32_t chunk, uint32_t wanted, int system)
{
    struct laz_error error = {0, 0, 0, 0};
    uint32_t answer;
    in->calls = out->calls = 0;
    in->ends = out->ends = out->whole = 0;
    out->length = 0;
    asked = 0;
    answer = copy_memory(in, out, chunk, &error);
    fails_at = 0;
    if (answer != error.answer || in->ends != 1 || out->ends > 1 || (answer != LAZ_DONE && out->whole && system != 79))
        fail("an end was not told once, or an answer is not that of the error");
    if (answer != LAZ_DONE && (answer != wanted || (wanted != LAZ_NO_MEMORY && error.system != system)))
        fail("another answer than that of what failed");
    return answer != LAZ_DONE;
}

static int failing(const char *name, uint32_t chunk)
{
    struct memory in = file_of(name), out = {malloc(1 << 22), 0, 1 << 22, 0, 0, 0, 0}, good = out;
    unsigned long trials = 0;
    int again = 1;
    if (trial(&in, &out, chunk, 0, 0))
        fail("the file is not copied");
    good.bytes = malloc(out.length);
    if (good.bytes == NULL)
        fail("out of memory");
    memcpy(good.bytes, out.bytes, out.length);
    good.length = out.length;
    for (unsigned long at = 1; again; at++, trials++) {
        fails_at = at;
        again = trial(&in, &out, chunk, LAZ_NO_MEMORY, 0);
    }
    again = 1;
    for (unsigned long at = 1; again; at++, trials++) {
        in.fails = at;
        again = trial(&in, &out, chunk, LAZ_READ_FAILED, 77);
    }
    in.fails = 0;
    again = 1;
    for (unsigned long at = 1, last = out.calls; again; at++, trials++) {
        out.fails = at; /* the last call is that which ends a whole file */
        again = trial(&in, &out, chunk, LAZ_WRITE_FAILED, at == last ? 79 : 78);
    }
    if (out.length != good.length || memcmp(out.bytes, good.bytes, good.length) != 0)
        fail("another file after the trials");
    free(in.bytes);
    free(out.bytes);
    free(good.bytes);
    printf("%lu\n", trials);
    return 0;
}

static void check(int holds, const char *what)
{
    if (!holds)
        fail(what);
}

static int wrong_arguments(const char *name)
{
    struct memory file = file_of(name), out = {malloc(1 << 22), 0, 1 << 22, 0, 0, 0, 0};
    struct laz_io from = {&file, file.length, read_memory, NULL, NULL}, to = {&out, 0, NULL, write_memory, NULL};
    struct laz_io none = {NULL, 0, NULL, NULL, NULL};
    struct laz_pool no_run = {NULL, 2, NULL}, no_threads = {NULL, 0, run_backwards}, many = {NULL, 257, run_backwards};
    struct laz_error error;
    laz_reader *reader;
    laz_writer *writer;
    uint8_t records[40000];
    const uint8_t *head;
    uint32_t count;
    size_t length;
    check(laz_reader_open(NULL, NULL, &reader, &error) == LAZ_WRONG && reader == NULL, "no file");
    check(laz_reader_open(&none, NULL, &reader, &error) == LAZ_WRONG, "no read");
    check(laz_reader_open(&from, &no_run, &reader, &error) == LAZ_WRONG, "no run");
    check(laz_reader_open(&from, &no_threads, &reader, &error) == LAZ_WRONG, "no threads");
    check(laz_reader_open(&from, &many, &reader, &error) == LAZ_WRONG, "257 threads");
    check(laz_reader_open_path(NULL, 1, &reader, NULL) == LAZ_WRONG, "no name");
    check(laz_reader_open_path(name, 0, &reader, NULL) == LAZ_WRONG, "no threads for a name");
    check(laz_reader_open_path("none.laz", 1, &reader, &error) == LAZ_READ_FAILED && error.system == 2, "no such file");
    check(laz_reader_open_path(".", 1, &reader, &error) == LAZ_READ_FAILED && error.system == 21, "a folder");
    check(laz_reader_open(&from, NULL, &reader, NULL) == LAZ_DONE, "a file without an error");
    check(laz_reader_records(reader, 5, 4, records, &count, &error) == LAZ_WRONG && count == 0, "a range in no order");
    check(laz_reader_records(reader, 0, 1001, records, &count, &error) == LAZ_WRONG, "a range past the end");
    check(laz_reader_seek(reader, 1001) == LAZ_WRONG && laz_reader_seek(reader, 1000) == LAZ_DONE, "past the end");
    check(laz_reader_next(reader, records, 5, &count, &error) == LAZ_DONE && count == 0, "none at the end");
    check(laz_reader_seek(reader, 990) == LAZ_DONE, "a place");
    check(laz_reader_next(reader, records, 50, &count, &error) == LAZ_DONE && count == 10, "ten at the end");
    head = laz_reader_plain_head(reader, &length);
    check(laz_writer_create(&none, NULL, head, length, 5, 0, &writer, &error) == LAZ_WRONG, "no write");
    check(laz_writer_create(&to, NULL, head, length, 250001, 0, &writer, &error) == LAZ_WRONG, "a large chunk");
    check(laz_writer_create(&to, NULL, head, length, 5, 4, &writer, &error) == LAZ_WRONG, "an unknown set");
    check(laz_writer_create(&to, NULL, head, 100, 5, 0, &writer, &error) == LAZ_BAD && error.cause == 1, "short");
    check(laz_writer_create(&to, NULL, head, length - 1, 5, 0, &writer, &error) == LAZ_BAD, "a head that is cut");
    check(laz_writer_create(&to, NULL, file.bytes, length, 5, 0, &writer, &error) == LAZ_BAD, "a packed head");
    check(laz_writer_create(&to, NULL, head, length, 5, 0, &writer, &error) == LAZ_DONE, "a writer");
    check(laz_writer_put(writer, records, 10, &error) == LAZ_DONE, "ten records");
    check(laz_writer_finish(writer, &error) == LAZ_WRONG, "ten records under a head of 1000");
    check(laz_writer_put(writer, records, UINT32_MAX - 9, &error) == LAZ_WRONG, "2^32 points");
    laz_writer_close(writer);
    /* cppcheck-suppress unreadVariable; the calls of `to` read it */
    out.length = 0;
    check(laz_writer_create(&to, NULL, head, length, 5, LAZ_SETS_COUNTS, &writer, &error) == LAZ_DONE, "a writer");
    check(laz_writer_finish(writer, &error) == LAZ_DONE && laz_writer_finish(writer, &error) == LAZ_WRONG, "twice");
    check(laz_writer_put(writer, records, 1, &error) == LAZ_WRONG, "records after the end");
    laz_writer_close(writer);
    laz_writer_close(NULL);
    laz_reader_close(NULL);
    laz_reader_close(reader);
    check(laz_error_text(&error, "a", (char *)records, 5) == 18 && strcmp((char *)records, "a: w") == 0, "a cut text");
    check(strcmp(laz_cause_text(21), "BadChunk") == 0 && strcmp(laz_cause_text(99), "unknown") == 0, "names");
    free(file.bytes);
    free(out.bytes);
    return 0;
}

int main(int count, char **words)
{
    const char *word = count > 1 ? words[1] : "";
    if (count == 8 && strcmp(word, "copy") == 0)
        return copy(words + 2);
    if (count == 7 && strcmp(word, "range") == 0)
        return range(words + 2);
    if (count == 3 && strcmp(word, "all") == 0)
        return unpack_all((unsigned)atoi(words[2]));
    if (count == 4 && strcmp(word, "failing") == 0)
        return failing(words[2], (uint32_t)atol(words[3]));
    if (count == 3 && strcmp(word, "wrong") == 0)
        return wrong_arguments(words[2]);
    fail("unknown words");
}
