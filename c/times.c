/* times FILE CHUNK: how long the records of a plain LAS file take to pack and to unpack in memory, in chunks of CHUNK
 * points: nanoseconds a point, the best of five rounds. */
#define _POSIX_C_SOURCE 200809L
#include <las.h>
#include <stdio.h>
#include <stdlib.h>
#include <string.h>
#include <time.h>

#define ROUNDS 5

/* All bytes of a file; NULL if it can't be read. */
static uint8_t *file_of(const char *name, size_t *size)
{
    FILE *stream = fopen(name, "rb");
    uint8_t *bytes = NULL;
    long length = -1;
    if (stream != NULL && fseek(stream, 0, SEEK_END) == 0 && (length = ftell(stream)) > 0
        && fseek(stream, 0, SEEK_SET) == 0)
        bytes = malloc((size_t)length);
    if (bytes != NULL && fread(bytes, 1, (size_t)length, stream) != (size_t)length) {
        free(bytes);
        bytes = NULL;
    }
    if (stream != NULL)
        fclose(stream);
    *size = bytes == NULL ? 0 : (size_t)length;
    return bytes;
}

static double seconds(void)
{
    struct timespec now;
    clock_gettime(CLOCK_PROCESS_CPUTIME_ID, &now);
    return (double)now.tv_sec + 1e-9 * (double)now.tv_nsec;
}

/* Packs and unpacks all records once, and adds up the seconds of each; answers whether they came back. */
static int both_ways(const struct laz_head *head, const uint8_t *records, uint32_t chunk, uint8_t *room,
                     size_t room_size, uint8_t *again, double *packing, double *unpacking)
{
    *packing = *unpacking = 0;
    for (uint32_t done = 0; done < head->points;) {
        uint32_t count = head->points - done < chunk ? head->points - done : chunk;
        size_t length = (size_t)count * head->record_length, written = 0;
        double begun = seconds(), between;
        if (laz_c_pack(head->format, head->extra, records, length, room, room_size, &written) != LAZ_DONE)
            return 0;
        between = seconds();
        if (laz_c_unpack(head->format, head->extra, room, written, count, again, length) != LAZ_DONE)
            return 0;
        *unpacking += seconds() - between;
        *packing += between - begun;
        if (memcmp(again, records, length) != 0)
            return 0;
        records += length;
        done += count;
    }
    return 1;
}

static int times(const uint8_t *file, size_t size, uint32_t chunk)
{
    struct laz_head head;
    uint32_t offset, cause;
    size_t room_size;
    uint8_t *room, *again;
    double packing = 1e9, unpacking = 1e9;
    int good = 1;

    if (laz_c_need(file, size < LAZ_FRONT ? size : LAZ_FRONT, size, &offset, &cause) != LAZ_DONE
        || laz_c_head(file, offset, size, &head) != LAZ_DONE || head.chunk != 0 || head.points == 0)
        return 5;
    room_size = (size_t)laz_c_room(head.format, head.extra, chunk);
    room = malloc(room_size);
    again = malloc((size_t)chunk * head.record_length);
    for (int round = 0; round < ROUNDS && good; round++) {
        double one, other;
        good = room != NULL && again != NULL
               && both_ways(&head, file + head.offset, chunk, room, room_size, again, &one, &other);
        if (good) {
            packing = one < packing ? one : packing;
            unpacking = other < unpacking ? other : unpacking;
        }
    }
    free(room);
    free(again);
    if (!good)
        return 1;
    printf("packing %.0f ns a point\nunpacking %.0f ns a point\n", 1e9 * packing / head.points,
           1e9 * unpacking / head.points);
    return 0;
}

int main(int count, char **words)
{
    size_t size;
    unsigned long chunk = count == 3 ? strtoul(words[2], NULL, 10) : 0;
    uint8_t *file = chunk > 0 && chunk <= LAZ_MAX_CHUNK_POINTS ? file_of(words[1], &size) : NULL;
    int status = 3;
    if (file != NULL)
        status = times(file, size, (uint32_t)chunk);
    if (status != 0)
        fprintf(stderr, "times: no plain LAS file with points, no number from 1 to 250000, or no memory\n");
    free(file);
    return status;
}
