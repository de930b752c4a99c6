/* heights FILE: the number of points of a LAS or LAZ file, and its least and greatest raw z (2147483647
 * and -2147483648 of no points). */
#include <las.h>
#include <stdio.h>
#include <string.h>

#define BATCH 10000

int main(int count, char **words)
{
    static uint8_t records[BATCH * 226]; /* no record is longer */
    int32_t z, least = INT32_MAX, greatest = INT32_MIN;
    struct laz_error error;
    laz_reader *reader;
    char text[200];
    uint32_t got = 0, answer = laz_reader_open_path(count == 2 ? words[1] : "", 4, &reader, &error);
    size_t size = answer == LAZ_DONE ? laz_reader_head(reader)->record_length : 0;
    while (answer == LAZ_DONE && (answer = laz_reader_next(reader, records, BATCH, &got, &error)) == LAZ_DONE && got)
        for (const uint8_t *at = records; at < records + got * size; at += size) {
            memcpy(&z, at + 8, 4);
            least = z < least ? z : least;
            greatest = z > greatest ? z : greatest;
        }
    if (answer == LAZ_DONE)
        printf("points %u\nraw z %d %d\n", (unsigned)laz_reader_head(reader)->points, (int)least, (int)greatest);
    if (answer != LAZ_DONE && laz_error_text(&error, words[count - 1], text, sizeof text) > 0)
        fprintf(stderr, "%s\n", text);
    laz_reader_close(reader);
    return (int)answer;
}
