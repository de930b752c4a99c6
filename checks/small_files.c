/* small_files ROUNDS FILE...: how long packed files of one chunk take to be opened and read by a laz_reader, over
 * laz_c_unpack of the same chunk in memory: prints the microseconds a file of both. The least time of a file counts. */
#define _POSIX_C_SOURCE 200809L
#include <las.h>
#include <stdio.h>
#include <stdlib.h>
#include <string.h>
#include <time.h>

struct tile {
    const char *name;
    struct laz_head head;
    uint8_t *chunk;
    size_t length;
    double unpacking, reading;
};

static double seconds(void)
{
    struct timespec now;
    clock_gettime(CLOCK_PROCESS_CPUTIME_ID, &now);
    return (double)now.tv_sec + 1e-9 * (double)now.tv_nsec;
}

/* Reads all records of a file to `records`; answers whether it is done. */
static int read_records(struct tile *tile, uint8_t *records)
{
    laz_reader *reader;
    struct laz_error error;
    uint32_t whole;
    int done;
    if (laz_reader_open_path(tile->name, 1, &reader, &error) != LAZ_DONE)
        return 0;
    tile->head = *laz_reader_head(reader);
    done = records == NULL
           || laz_reader_records(reader, 0, tile->head.points, records, &whole, &error) == LAZ_DONE;
    laz_reader_close(reader);
    return done;
}

/* Keeps the bytes of the only chunk of a file; answers whether it is done. */
static int keep_chunk(struct tile *tile)
{
    uint8_t pointer[8];
    uint64_t table = 0;
    FILE *stream = fopen(tile->name, "rb");
    int done = stream != NULL && read_records(tile, NULL) && tile->head.points <= tile->head.chunk
               && fseek(stream, (long)tile->head.offset, SEEK_SET) == 0 && fread(pointer, 1, 8, stream) == 8;
    for (int i = 7; done && i >= 0; i--)
        table = table << 8 | pointer[i];
    tile->length = done ? (size_t)table - tile->head.offset - 8 : 0;
    tile->chunk = done ? malloc(tile->length) : NULL;
    done = tile->chunk != NULL && fread(tile->chunk, 1, tile->length, stream) == tile->length;
    if (stream != NULL)
        fclose(stream);
    tile->unpacking = tile->reading = 1e9;
    return done;
}

/* Takes a file both ways once. */
static int both_ways(struct tile *tile)
{
    size_t length = (size_t)tile->head.points * tile->head.record_length;
    uint8_t *records = malloc(length), *again = malloc(length);
    double begun = seconds(), between, ended;
    int done = records != NULL && again != NULL
               && laz_c_unpack(tile->head.format, tile->head.extra, tile->chunk, tile->length, tile->head.points,
                               records, length) == LAZ_DONE;
    between = seconds();
    done = done && read_records(tile, again);
    ended = seconds();
    done = done && memcmp(records, again, length) == 0;
    free(records);
    free(again);
    tile->unpacking = between - begun < tile->unpacking ? between - begun : tile->unpacking;
    tile->reading = ended - between < tile->reading ? ended - between : tile->reading;
    return done;
}

/* Takes all files so many times; answers whether it is done. */
static int take(struct tile *tiles, size_t files, char **names, long rounds)
{
    int done = files > 0;
    for (size_t i = 0; done && i < files; i++) {
        tiles[i].name = names[i];
        done = keep_chunk(&tiles[i]);
    }
    for (long round = 0; done && round < rounds; round++)
        for (size_t i = 0; done && i < files; i++)
            done = both_ways(&tiles[i]);
    return done;
}

int main(int count, char **words)
{
    long rounds = count > 2 ? strtol(words[1], NULL, 10) : 0;
    size_t files = rounds > 0 ? (size_t)count - 2 : 0;
    struct tile *tiles = calloc(files + 1, sizeof *tiles);
    double unpacking = 0, reading = 0;
    int done;
    if (tiles == NULL)
        return 1;
    done = take(tiles, files, words + 2, rounds);
    for (size_t i = 0; i < files; i++) {
        unpacking += 1e6 * tiles[i].unpacking / (double)files;
        reading += 1e6 * tiles[i].reading / (double)files;
        free(tiles[i].chunk);
    }
    free(tiles);
    if (done)
        printf("%.1f %.1f\n", unpacking, reading);
    else
        fprintf(stderr, "small_files: no rounds, no packed files of one chunk, or no memory\n");
    return done ? 0 : 1;
}
