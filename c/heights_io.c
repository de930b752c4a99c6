/* heights_io FILE: what heights.c prints. The bytes of the file come by calls of its own, as is needed on systems whose
 * library has no calls with `_path`. */
#define _POSIX_C_SOURCE 200809L
#define _FILE_OFFSET_BITS 64
#include <las.h>
#include <stdio.h>
#include <string.h>

#define BATCH 10000

static int read_bytes(void *file, uint64_t at, uint8_t *bytes, size_t length)
{
    return fseeko(file, (int64_t)at, SEEK_SET) != 0 || fread(bytes, 1, length, file) != length;
}

static int close_file(void *file, int whole)
{
    (void)whole;
    return fclose(file);
}

static laz_reader *opened(const char *name, struct laz_error *error)
{
    struct laz_io io = {.context = fopen(name, "rb"), .read = read_bytes, .end = close_file};
    laz_reader *reader = NULL;
    error->answer = LAZ_READ_FAILED;
    if (io.context == NULL || fseeko(io.context, 0, SEEK_END) != 0)
        return NULL;
    io.size = (uint64_t)ftello(io.context);
    laz_reader_open(&io, NULL, &reader, error);
    return reader;
}

int main(int count, char **words)
{
    static uint8_t records[BATCH * 226]; /* no record is longer */
    int32_t z, least = INT32_MAX, greatest = INT32_MIN;
    struct laz_error error = {0};
    char text[200];
    uint32_t got = 1;
    laz_reader *reader = opened(count == 2 ? words[1] : "", &error);
    while (reader && got > 0 && laz_reader_next(reader, records, BATCH, &got, &error) == LAZ_DONE)
        for (const uint8_t *at = records; at < records + got * laz_reader_head(reader)->record_length;
             at += laz_reader_head(reader)->record_length) {
            memcpy(&z, at + 8, 4);
            least = z < least ? z : least;
            greatest = z > greatest ? z : greatest;
        }
    if (error.answer == LAZ_DONE)
        printf("points %u\nraw z %d %d\n", (unsigned)laz_reader_head(reader)->points, (int)least, (int)greatest);
    if (error.answer != LAZ_DONE && laz_error_text(&error, words[count - 1], text, sizeof text) > 0)
        fprintf(stderr, "%s\n", text);
    laz_reader_close(reader);
    return (int)error.answer;
}
