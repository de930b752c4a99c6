/* Reads files whole and writes them again by the calls of las.h over memory, on any system: portable_files LIST.
 *
 * LIST has the names of files, one a line. For each it prints a line: a sum of the plain file (FNV-1a, 64 bits), and of
 * the file that is written of it in chunks of 256 points; or what the error says, and a sum of the records before it. */
#include "las.h"
#include <stdio.h>
#include <stdlib.h>
#include <string.h>

#define BATCH 1000
#define ROOM 10000000

static uint8_t bytes_read[ROOM], bytes_written[ROOM];

struct memory {
    uint8_t *bytes;
    size_t length, room;
};

static uint64_t sum_of(uint64_t sum, const uint8_t *at, size_t length)
{
    for (size_t i = 0; i < length; i++)
        sum = (sum ^ at[i]) * UINT64_C(1099511628211);
    return sum;
}

static int read_bytes(void *context, uint64_t at, uint8_t *bytes, size_t length)
{
    const struct memory *memory = context;
    if (at > memory->length || length > memory->length - at)
        return 1;
    memcpy(bytes, memory->bytes + at, length);
    return 0;
}

static int write_bytes(void *context, uint64_t at, const uint8_t *bytes, size_t length)
{
    struct memory *memory = context;
    if (at + length > memory->room)
        return 1;
    memcpy(memory->bytes + at, bytes, length);
    memory->length = at + length > memory->length ? (size_t)(at + length) : memory->length;
    return 0;
}

static int file_of(const char *name, struct memory *memory)
{
    FILE *stream = fopen(name, "rb");
    if (stream == NULL)
        return 0;
    memory->length = fread(memory->bytes, 1, memory->room, stream);
    fclose(stream);
    return memory->length < memory->room;
}

/* Writes all records to a file in memory, and prints its sum. */
static uint64_t copy_of(laz_reader *reader, struct memory *target, uint64_t *sum, struct laz_error *error)
{
    static uint8_t records[BATCH * 226];
    size_t length, size = laz_reader_head(reader)->record_length;
    const uint8_t *head = laz_reader_plain_head(reader, &length);
    struct laz_io io = {.context = target, .write = write_bytes};
    struct laz_error fault;
    laz_writer *writer;
    uint32_t got = 1, answer = LAZ_DONE;
    target->length = 0;
    *sum = sum_of(UINT64_C(14695981039346656037), head, length);
    if (laz_writer_create(&io, NULL, head, length, 256, 0, &writer, &fault) != LAZ_DONE)
        return 1;
    while (answer == LAZ_DONE && got > 0) {
        answer = laz_reader_next(reader, records, BATCH, &got, error);
        *sum = sum_of(*sum, records, got * size);
        if (laz_writer_put(writer, records, got, &fault) != LAZ_DONE)
            exit(2);
    }
    if (answer == LAZ_DONE && laz_writer_finish(writer, &fault) != LAZ_DONE)
        exit(3);
    laz_writer_close(writer);
    return answer == LAZ_DONE ? sum_of(UINT64_C(14695981039346656037), target->bytes, target->length) : 0;
}

static void print_line(struct memory *file, struct memory *target)
{
    struct laz_io io = {.context = file, .size = file->length, .read = read_bytes};
    struct laz_error error;
    laz_reader *reader;
    uint64_t sum = 0, written = 0;
    char text[200];
    if (laz_reader_open(&io, NULL, &reader, &error) == LAZ_DONE)
        written = copy_of(reader, target, &sum, &error);
    laz_error_text(&error, NULL, text, sizeof text);
    printf("%s %016llx %016llx\n", text, (unsigned long long)sum, (unsigned long long)written);
    laz_reader_close(reader);
}

int main(int count, char **words)
{
    struct memory file = {bytes_read, 0, ROOM}, target = {bytes_written, 0, ROOM};
    char name[1000];
    if (count != 2 || freopen(words[1], "r", stdin) == NULL)
        return 9;
    while (fgets(name, sizeof name, stdin) != NULL) {
        name[strcspn(name, "\r\n")] = 0;
        if (!file_of(name, &file))
            return 8;
        print_line(&file, &target);
    }
    return 0;
}
