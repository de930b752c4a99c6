/* What the fuzzer calls, for libFuzzer: the calls of las.h on any bytes. The first bytes choose the call and its arguments.
 *
 * A crash, a sanitizer's report or a failed `must` is a finding. Beside safety it tries what is proved: a chunk that is
 * unpacked holds records that pack and unpack again to themselves, and no call that is not done changes what it was given.
 */
#include <las.h>
#include <stdio.h>
#include <stdlib.h>
#include <string.h>

enum { MOST_POINTS = 2000, MOST_CHUNKS = 4096 };

static void must(int holds, const char *what)
{
    if (!holds) {
        fprintf(stderr, "decode: %s\n", what);
        abort();
    }
}

static void *room(size_t size)
{
    void *bytes = malloc(size > 0 ? size : 1);
    must(bytes != NULL, "out of memory here");
    return bytes;
}

static const uint16_t SIZES[] = {20, 28, 26, 34};

/* Packs records and unpacks them again. */
static void same_again(uint8_t format, uint16_t extra, const uint8_t *records, size_t length, uint32_t count)
{
    uint64_t most = laz_c_room(format, extra, count);
    uint8_t *chunk = room(most), *again = room(length);
    size_t written = 0;
    uint32_t answer = laz_c_pack(format, extra, records, length, chunk, most, &written);
    must(answer == LAZ_DONE || answer == LAZ_NO_MEMORY, "records are not packed");
    if (answer == LAZ_DONE) {
        must(written <= most, "a chunk is longer than its room");
        answer = laz_c_unpack(format, extra, chunk, written, count, again, length);
        must(answer == LAZ_DONE || answer == LAZ_NO_MEMORY, "a packed chunk is not unpacked");
        must(answer != LAZ_DONE || memcmp(records, again, length) == 0, "other records come back");
    }
    free(chunk);
    free(again);
}

static void chunk_of(const uint8_t *bytes, size_t size)
{
    if (size < 4)
        return;
    uint8_t format = bytes[0] & 3;
    uint16_t extra = bytes[1] % 193;
    uint32_t count = 1 + (bytes[2] | (uint32_t)bytes[3] << 8) % MOST_POINTS;
    size_t length = (size_t)count * (SIZES[format] + extra);
    uint8_t *records = room(length);
    uint32_t answer = laz_c_unpack(format, extra, bytes + 4, size - 4, count, records, length);
    must(answer == LAZ_DONE || answer == LAZ_BAD || answer == LAZ_NO_MEMORY, "right arguments are wrong");
    if (answer == LAZ_DONE)
        same_again(format, extra, records, length, count);
    free(records);
}

static void records_of(const uint8_t *bytes, size_t size)
{
    if (size < 2)
        return;
    uint8_t format = bytes[0] & 3;
    uint16_t extra = bytes[1] % 193;
    size_t each = (size_t)SIZES[format] + extra;
    uint32_t count = (uint32_t)((size - 2) / each);
    if (count == 0 || count > MOST_POINTS)
        return;
    same_again(format, extra, bytes + 2, count * each, count);
}

static void table_of(const uint8_t *bytes, size_t size)
{
    uint32_t chunk, points, refusal = 77;
    uint64_t total;
    if (size < 16)
        return;
    memcpy(&chunk, bytes, 4);
    memcpy(&points, bytes + 4, 4);
    memcpy(&total, bytes + 8, 8);
    if (bytes[3] == 255)
        chunk = LAZ_COUNTED;
    uint32_t chunks = laz_c_chunks(bytes + 16, size - 16, chunk, points);
    if (chunks > MOST_CHUNKS)
        return;
    uint32_t *sizes = room(4 * (size_t)chunks), *counts = room(4 * (size_t)chunks);
    uint32_t answer = laz_c_table(bytes + 16, size - 16, chunk, points, total, sizes, chunks, counts, chunks, &refusal);
    uint64_t sum = 0, all = 0;
    for (uint32_t i = 0; i < chunks && answer == LAZ_DONE; i++) {
        sum += sizes[i];
        all += counts[i];
    }
    must(answer != LAZ_DONE || (sum == points && all == total), "a table is read that does not add up");
    must(answer != LAZ_BAD || refusal == LAZ_TABLE || refusal == LAZ_CHUNK_SUM || refusal == LAZ_POINT_SUM,
         "a table is refused for another cause");
    must(answer == LAZ_BAD || refusal == 77, "a cause is written that is none");
    free(sizes);
    free(counts);
}

static void head_of(const uint8_t *bytes, size_t size)
{
    uint32_t offset = 77, refusal = 77;
    struct laz_head head;
    memset(&head, 0, sizeof head);
    uint32_t answer = laz_c_need(bytes, size < LAZ_FRONT ? size : LAZ_FRONT, size, &offset, &refusal);
    must(answer == LAZ_DONE || answer == LAZ_BAD, "the front is answered otherwise");
    if (answer != LAZ_DONE)
        return;
    must(offset <= size, "more bytes are needed than there are");
    answer = laz_c_head(bytes, offset, size, &head);
    must(answer == LAZ_DONE || answer == LAZ_BAD || answer == LAZ_NO_MEMORY, "the head is answered otherwise");
    must(answer != LAZ_DONE || (head.refusal == 0 && head.offset == offset), "the head says another offset");
}

int LLVMFuzzerTestOneInput(const uint8_t *bytes, size_t size);

int LLVMFuzzerTestOneInput(const uint8_t *bytes, size_t size)
{
    if (size == 0)
        return 0;
    switch (bytes[0] & 3) {
    case 0:
    case 1: chunk_of(bytes + 1, size - 1); break;
    case 2: bytes[0] & 4 ? records_of(bytes + 1, size - 1) : table_of(bytes + 1, size - 1); break;
    default: head_of(bytes + 1, size - 1);
    }
    return 0;
}
