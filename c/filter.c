/* filter IN OUT CLASS: the records of one class, in a file that appears whole; packed, if OUT ends in .laz. */
#include <las.h>
#include <stdio.h>
#include <stdlib.h>
#include <string.h>

#define BATCH 1000000
#define THREADS 4

/* Moves the records of a class to the front; answers how many they are. */
static uint32_t keep(uint8_t *records, uint32_t count, size_t size, unsigned long class)
{
    uint32_t kept = 0;
    for (uint32_t i = 0; i < count; i++)
        if ((records[i * size + 15] & 31) == class)
            memmove(records + kept++ * size, records + i * size, size);
    return kept;
}

static uint32_t filter(laz_reader *reader, laz_writer *writer, unsigned long class, struct laz_error *error)
{
    size_t size = laz_reader_head(reader)->record_length;
    uint8_t *records = malloc(BATCH * size);
    uint32_t count = 1, answer = LAZ_DONE;
    if (records == NULL)
        return error->answer = LAZ_NO_MEMORY;
    while (answer == LAZ_DONE && count > 0) {
        answer = laz_reader_next(reader, records, BATCH, &count, error);
        if (answer == LAZ_DONE)
            answer = laz_writer_put(writer, records, keep(records, count, size, class), error);
    }
    free(records);
    return answer == LAZ_DONE ? laz_writer_finish(writer, error) : answer;
}

int main(int count, char **words)
{
    struct laz_error error;
    laz_reader *reader;
    laz_writer *writer = NULL;
    char text[200];
    size_t length;
    uint32_t chunk, answer;
    if (count != 4)
        return fprintf(stderr, "usage: filter IN OUT CLASS\n"), 2;
    chunk = strlen(words[2]) > 4 && strcmp(words[2] + strlen(words[2]) - 4, ".laz") == 0 ? 50000 : 0;
    answer = laz_reader_open_path(words[1], THREADS, &reader, &error);
    if (answer == LAZ_DONE) {
        const uint8_t *head = laz_reader_plain_head(reader, &length);
        answer = laz_writer_create_path(words[2], THREADS, head, length, chunk, LAZ_SETS_COUNTS, &writer, &error);
    }
    if (answer == LAZ_DONE)
        answer = filter(reader, writer, strtoul(words[3], NULL, 10), &error);
    if (answer != LAZ_DONE && laz_error_text(&error, words[1], text, sizeof text) > 0)
        fprintf(stderr, "%s\n", text);
    laz_writer_close(writer);
    laz_reader_close(reader);
    return (int)answer;
}
