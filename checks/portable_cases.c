/* Unpacks packed files in memory by the calls of las.h, and packs their chunks again, on any system: portable_cases LIST.
 *
 * LIST has the names of files, one a line. For each it prints a line: a sum of the plain file (FNV-1a, 64 bits), how many
 * chunks were packed again to the same bytes, and how many there are; or the number of the cause and, after 21, the
 * number of the chunk. */
#include "las.h"
#include <stdio.h>
#include <stdlib.h>
#include <string.h>

struct bytes {
    uint8_t *at;
    size_t length;
};

static void *room_of(size_t length)
{
    void *room = malloc(length == 0 ? 1 : length);
    if (room == NULL) {
        fprintf(stderr, "portable_cases: no memory\n");
        exit(9);
    }
    return room;
}

static struct bytes file_of(const char *name)
{
    FILE *stream = fopen(name, "rb");
    struct bytes file = {NULL, 0};
    long length = -1;
    if (stream == NULL || fseek(stream, 0, SEEK_END) != 0 || (length = ftell(stream)) < 0
        || fseek(stream, 0, SEEK_SET) != 0) {
        fprintf(stderr, "portable_cases: %s can't be read\n", name);
        exit(9);
    }
    file.length = (size_t)length;
    file.at = room_of(file.length);
    size_t got = fread(file.at, 1, file.length, stream);
    fclose(stream);
    if (got != file.length) {
        free(file.at);
        exit(9);
    }
    return file;
}

static uint64_t sum_of(uint64_t sum, const uint8_t *at, size_t length)
{
    for (size_t i = 0; i < length; i++)
        sum = (sum ^ at[i]) * UINT64_C(1099511628211);
    return sum;
}

static uint64_t number_at(const uint8_t *at)
{
    uint64_t number = 0;
    for (int i = 7; i >= 0; i--)
        number = number << 8 | at[i];
    return number;
}

/* Whether the records are packed to these bytes. */
static int packs_to(const struct laz_head *head, const uint8_t *records, size_t length, uint32_t count,
                    const uint8_t *chunk, size_t bytes)
{
    size_t room = (size_t)laz_c_room(head->format, head->extra, count), written = 0;
    uint8_t *packed = room_of(room);
    int same = laz_c_pack(head->format, head->extra, records, length, packed, room, &written) == LAZ_DONE
        && written == bytes && memcmp(packed, chunk, bytes) == 0;
    free(packed);
    return same;
}

/* Unpacks the chunks, and prints the line of the file. */
static void print_chunks(const struct bytes *file, const struct laz_head *head, const uint32_t *sizes,
                         const uint32_t *counts, uint32_t chunks)
{
    uint64_t sum = sum_of(UINT64_C(14695981039346656037), file->at, head->header_size);
    uint32_t same = 0;
    size_t at = (size_t)head->offset + 8;
    for (uint32_t i = 0; i < chunks; i++) {
        size_t length = (size_t)sizes[i] * head->record_length;
        uint8_t *records = room_of(length);
        uint32_t answer = laz_c_unpack(head->format, head->extra, file->at + at, counts[i], sizes[i], records, length);
        if (answer == LAZ_DONE) {
            sum = sum_of(sum, records, length);
            same += (uint32_t)packs_to(head, records, length, sizes[i], file->at + at, counts[i]);
        }
        free(records);
        if (answer != LAZ_DONE) {
            printf(answer == LAZ_BAD ? "21 %lu\n" : "answer %lu\n", (unsigned long)(answer == LAZ_BAD ? i : answer));
            return;
        }
        at += counts[i];
    }
    printf("%08lx%08lx %lu %lu\n", (unsigned long)(sum >> 32), (unsigned long)(sum & 0xffffffff), (unsigned long)same,
           (unsigned long)chunks);
}

/* Reads the table and goes on, or answers the cause. */
static uint32_t read_table(const struct bytes *file, const struct laz_head *head)
{
    size_t first = (size_t)head->offset + 8, end = file->length;
    if (end < first)
        return LAZ_TABLE_POINTER;
    uint64_t table = number_at(file->at + head->offset);
    if (table == UINT64_MAX) {
        if (end < first + 8)
            return LAZ_TABLE_POINTER;
        end -= 8;
        table = number_at(file->at + end);
    }
    if (table < first || table > end)
        return LAZ_TABLE_POINTER;
    const uint8_t *bytes = file->at + table;
    size_t length = end - (size_t)table;
    uint32_t chunks = laz_c_chunks(bytes, length, head->chunk, head->points), cause = 0;
    uint32_t *sizes = room_of(4 * (size_t)chunks), *counts = room_of(4 * (size_t)chunks);
    if (laz_c_table(bytes, length, head->chunk, head->points, table - first, sizes, chunks, counts, chunks, &cause)
        == LAZ_DONE)
        print_chunks(file, head, sizes, counts, chunks);
    free(sizes);
    free(counts);
    return cause;
}

static void try_file(const char *name)
{
    struct bytes file = file_of(name);
    struct laz_head head;
    uint32_t offset = 0, cause = 0;
    size_t front = file.length < LAZ_FRONT ? file.length : LAZ_FRONT;
    if (laz_c_need(file.at, front, file.length, &offset, &cause) == LAZ_DONE) {
        if (laz_c_head(file.at, offset, file.length, &head) != LAZ_DONE)
            cause = head.refusal;
        else if (head.chunk == 0)
            printf("plain\n");
        else
            cause = read_table(&file, &head);
    }
    if (cause != 0)
        printf("%lu\n", (unsigned long)cause);
    free(file.at);
}

int main(int count, char **words)
{
    char name[1024];
    FILE *list = count == 2 ? fopen(words[1], "r") : NULL;
    if (list == NULL)
        return 2;
    while (fgets(name, sizeof name, list) != NULL) {
        name[strcspn(name, "\r\n")] = '\0';
        try_file(name);
    }
    fclose(list);
    return 0;
}
