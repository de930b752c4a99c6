/*
 * Packs and unpacks whole files in memory by the calls of las.h, for the repository's checks.
 *
 *   check unpack IN OUT          unpacks a packed file; the records of each chunk are packed and unpacked again
 *   check pack IN OUT CHUNK      packs a plain file in chunks of CHUNK points; 0: of 1, 2, 3 and so on
 *   check all                    reads names from standard input, one a line, and unpacks each file to NAME.out
 *   check arguments              calls with wrong lengths, null pointers and too little memory
 *
 * For each file it prints a line: 0, or the number of the cause for which the file is refused and, after 21, the number
 * of the first bad chunk; `plain` for a file that is not packed.
 *
 * What the library reads and writes ends at a page that may not be touched, so that one byte too many ends the program.
 */
#define _GNU_SOURCE
#include "las.h"
#include <stdio.h>
#include <stdlib.h>
#include <string.h>
#include <sys/mman.h>
#include <unistd.h>

/* Which allocation fails, counted from 1; none if it is 0. The linker sends the calls of malloc and realloc here. */
static unsigned long fails_at;
static unsigned long asked;

void *__real_malloc(size_t size);
void *__real_realloc(void *block, size_t size);
void *__wrap_malloc(size_t size);
void *__wrap_realloc(void *block, size_t size);

void *__wrap_malloc(size_t size)
{
    return ++asked == fails_at ? NULL : __real_malloc(size);
}

void *__wrap_realloc(void *block, size_t size)
{
    return ++asked == fails_at ? NULL : __real_realloc(block, size);
}

/* Bytes that end at a page that may not be touched. */
struct block {
    uint8_t *bytes;
    size_t length;
    void *pages;
    size_t mapped;
};

static _Noreturn void fail(const char *what)
{
    fprintf(stderr, "check: %s\n", what);
    exit(9);
}

static struct block block_of(size_t length)
{
    size_t page = (size_t)sysconf(_SC_PAGESIZE);
    struct block block = {NULL, length, NULL, (length + page - 1) / page * page + page};
    block.pages = mmap(NULL, block.mapped, PROT_READ | PROT_WRITE, MAP_PRIVATE | MAP_ANONYMOUS, -1, 0);
    if (block.pages == MAP_FAILED)
        fail("out of memory");
    if (mprotect((uint8_t *)block.pages + block.mapped - page, page, PROT_NONE) != 0)
        fail("no guard page");
    /* a list of numbers of four bytes stays aligned, since its length is a multiple of 4 */
    block.bytes = (uint8_t *)block.pages + block.mapped - page - length;
    return block;
}

static struct block copy_of(const uint8_t *bytes, size_t length)
{
    struct block block = block_of(length);
    if (length > 0 && bytes == NULL)
        fail("bytes of no file");
    if (length > 0)
        memcpy(block.bytes, bytes, length);
    return block;
}

static void drop(struct block *block)
{
    munmap(block->pages, block->mapped);
}

/* A buffer that grows. */
struct buffer {
    uint8_t *bytes;
    size_t length;
    size_t room;
};

static void put(struct buffer *out, const void *bytes, size_t length)
{
    if (out->bytes == NULL || out->length + length > out->room) {
        uint8_t *more = realloc(out->bytes, 2 * (out->length + length) + 1);
        if (more == NULL)
            fail("out of memory");
        out->room = 2 * (out->length + length) + 1;
        out->bytes = more;
    }
    if (length > 0)
        memcpy(out->bytes + out->length, bytes, length);
    out->length += length;
}

static uint64_t number(const uint8_t *bytes, int length)
{
    uint64_t value = 0;
    for (int i = length; i > 0; i--)
        value = value << 8 | bytes[i - 1];
    return value;
}

static void set_number(uint8_t *bytes, int length, uint64_t value)
{
    for (int i = 0; i < length; i++)
        bytes[i] = (uint8_t)(value >> 8 * i);
}

static struct buffer file_of(const char *name)
{
    struct buffer file = {NULL, 0, 0};
    uint8_t piece[65536];
    size_t got;
    FILE *stream = fopen(name, "rb");
    if (stream == NULL)
        fail(name);
    while ((got = fread(piece, 1, sizeof piece, stream)) > 0)
        put(&file, piece, got);
    if (ferror(stream))
        fail(name);
    fclose(stream);
    return file;
}

static void write_file(const char *name, const struct buffer *file)
{
    FILE *stream = fopen(name, "wb");
    if (stream == NULL || fwrite(file->bytes, 1, file->length, stream) != file->length || fclose(stream) != 0)
        fail(name);
}

/* Reads the head of a file; answers 0 or the number of the cause. */
static uint32_t head_of(const struct buffer *file, struct laz_head *head)
{
    uint32_t offset, refusal, answer;
    struct block front = copy_of(file->bytes, file->length < LAZ_FRONT ? file->length : LAZ_FRONT);
    struct block bytes;
    answer = laz_c_need(front.bytes, front.length, file->length, &offset, &refusal);
    drop(&front);
    if (answer == LAZ_BAD)
        return refusal;
    if (answer != LAZ_DONE)
        fail("laz_c_need");
    bytes = copy_of(file->bytes, offset);
    answer = laz_c_head(bytes.bytes, bytes.length, file->length, head);
    drop(&bytes);
    if (answer == LAZ_BAD)
        return head->refusal;
    if (answer != LAZ_DONE)
        fail("laz_c_head");
    return 0;
}

/* The chunks of a packed file. */
struct chunks {
    uint32_t count;
    struct block sizes;
    struct block counts;
};

/* Reads the chunk table of a packed file; answers 0 or the number of the cause. */
static uint32_t chunks_of(const struct buffer *file, const struct laz_head *head, struct chunks *chunks)
{
    uint64_t first = (uint64_t)head->offset + 8, end = file->length, table;
    uint32_t refusal, answer;
    struct block bytes;
    if (file->length < first)
        return LAZ_TABLE_POINTER;
    table = number(file->bytes + head->offset, 8);
    if (table == UINT64_MAX) {
        if (file->length < first + 8)
            return LAZ_TABLE_POINTER;
        end = file->length - 8;
        table = number(file->bytes + end, 8);
    }
    if (table < first || table > end)
        return LAZ_TABLE_POINTER;
    bytes = copy_of(file->bytes + table, end - table);
    chunks->count = laz_c_chunks(bytes.bytes, bytes.length, head->chunk, head->points);
    chunks->sizes = block_of(4 * (size_t)chunks->count);
    chunks->counts = block_of(4 * (size_t)chunks->count);
    answer = laz_c_table(bytes.bytes, bytes.length, head->chunk, head->points, table - first,
                         (uint32_t *)(void *)chunks->sizes.bytes, chunks->count,
                         (uint32_t *)(void *)chunks->counts.bytes, chunks->count, &refusal);
    drop(&bytes);
    if (answer == LAZ_DONE)
        return 0;
    drop(&chunks->sizes);
    drop(&chunks->counts);
    if (answer != LAZ_BAD)
        fail("laz_c_table");
    return refusal;
}

/* The head of the plain file of a packed one. */
static void put_plain_head(const struct buffer *file, const struct laz_head *head, struct buffer *plain)
{
    size_t laszip = 54 + (size_t)head->laszip_length;
    put(plain, file->bytes, head->laszip_start);
    put(plain, file->bytes + head->laszip_start + laszip, head->offset - head->laszip_start - laszip);
    set_number(plain->bytes + 96, 4, head->offset - laszip);
    set_number(plain->bytes + 100, 4, head->vlr_count - 1);
    plain->bytes[104] = head->format;
}

/* Packs a chunk of records, and answers how many bytes it has. */
static uint32_t put_chunk(const struct laz_head *head, const uint8_t *bytes, uint32_t size, struct buffer *packed)
{
    size_t written = 0;
    struct block records = copy_of(bytes, (size_t)size * head->record_length);
    struct block chunk = block_of((size_t)laz_c_room(head->format, head->extra, size));
    if (laz_c_pack(head->format, head->extra, records.bytes, records.length, chunk.bytes, chunk.length, &written)
        != LAZ_DONE)
        fail("laz_c_pack");
    put(packed, chunk.bytes, written);
    drop(&records);
    drop(&chunk);
    return (uint32_t)written;
}

/* Packs the records of a chunk and unpacks them again: they have to come back. */
static void come_back(const struct laz_head *head, const struct block *records, uint32_t size)
{
    struct buffer packed = {NULL, 0, 0};
    struct block chunk, again = block_of(records->length);
    put_chunk(head, records->bytes, size, &packed);
    chunk = copy_of(packed.bytes, packed.length);
    if (laz_c_unpack(head->format, head->extra, chunk.bytes, chunk.length, size, again.bytes, again.length) != LAZ_DONE
        || memcmp(again.bytes, records->bytes, records->length) != 0)
        fail("records do not come back");
    free(packed.bytes);
    drop(&chunk);
    drop(&again);
}

static uint32_t unpack(const struct buffer *file, struct buffer *plain, uint32_t *bad_chunk)
{
    struct laz_head head;
    struct chunks chunks;
    const uint32_t *sizes, *counts;
    uint32_t refusal = head_of(file, &head);
    size_t at = (size_t)head.offset + 8;
    if (refusal != 0)
        return refusal;
    if (head.chunk == 0)
        return UINT32_MAX;
    refusal = chunks_of(file, &head, &chunks);
    if (refusal != 0)
        return refusal;
    put_plain_head(file, &head, plain);
    sizes = (const uint32_t *)(const void *)chunks.sizes.bytes;
    counts = (const uint32_t *)(const void *)chunks.counts.bytes;
    for (uint32_t i = 0; i < chunks.count && refusal == 0; i++) {
        struct block chunk = copy_of(file->bytes + at, counts[i]);
        struct block records = block_of((size_t)sizes[i] * head.record_length);
        uint32_t answer = laz_c_unpack(head.format, head.extra, chunk.bytes, chunk.length, sizes[i], records.bytes,
                                       records.length);
        if (answer == LAZ_BAD) {
            refusal = LAZ_BAD_CHUNK;
            *bad_chunk = i;
        } else if (answer != LAZ_DONE) {
            fail("laz_c_unpack");
        } else {
            put(plain, records.bytes, records.length);
            come_back(&head, &records, sizes[i]);
        }
        at += counts[i];
        drop(&chunk);
        drop(&records);
    }
    drop(&chunks.sizes);
    drop(&chunks.counts);
    return refusal;
}

/* The head of the packed file of a plain one: the laszip VLR after all others. */
static void put_packed_head(const struct buffer *file, const struct laz_head *head, uint32_t chunk,
                            struct buffer *packed)
{
    uint8_t vlr[54] = {0};
    struct block payload = block_of(LAZ_MAX_PAYLOAD);
    size_t written = 0, end = head->header_size;
    for (uint32_t i = 0; i < head->vlr_count; i++)
        end += 54 + (size_t)number(file->bytes + end + 20, 2);
    if (laz_c_vlr(head->format, head->extra, chunk, payload.bytes, payload.length, &written) != LAZ_DONE)
        fail("laz_c_vlr");
    memcpy(vlr + 2, "laszip encoded", 14);
    set_number(vlr + 18, 2, 22204);
    set_number(vlr + 20, 2, written);
    memcpy(vlr + 22, "laszip version 2 items", 22);
    put(packed, file->bytes, end);
    put(packed, vlr, sizeof vlr);
    put(packed, payload.bytes, written);
    put(packed, file->bytes + end, head->offset - end);
    set_number(packed->bytes + 96, 4, head->offset + 54 + written);
    set_number(packed->bytes + 100, 4, head->vlr_count + 1);
    packed->bytes[104] |= 128;
    drop(&payload);
}

/* How many chunks the points make, and how many points each has. */
static uint32_t sizes_of(uint32_t points, uint32_t chunk, uint32_t *sizes)
{
    uint32_t count = 0;
    while (points > 0) {
        uint32_t size = chunk == LAZ_COUNTED ? count + 1 : chunk;
        size = points < size ? points : size;
        if (sizes != NULL)
            sizes[count] = size;
        points -= size;
        count++;
    }
    return count;
}

static uint32_t pack(const struct buffer *file, uint32_t chunk, struct buffer *packed)
{
    struct laz_head head;
    uint32_t refusal = head_of(file, &head), count, *sizes, *counts;
    size_t place, written, at = head.offset;
    struct block size_block, count_block, table;
    uint8_t pointer[8] = {0};
    if (refusal != 0)
        return refusal;
    if (head.chunk != 0)
        fail("the file is packed");
    put_packed_head(file, &head, chunk, packed);
    place = packed->length;
    put(packed, pointer, 8);
    count = sizes_of(head.points, chunk, NULL);
    size_block = block_of(4 * (size_t)count);
    count_block = block_of(4 * (size_t)count);
    sizes = (uint32_t *)(void *)size_block.bytes;
    counts = (uint32_t *)(void *)count_block.bytes;
    sizes_of(head.points, chunk, sizes);
    for (uint32_t i = 0; i < count; i++) {
        counts[i] = put_chunk(&head, file->bytes + at, sizes[i], packed);
        at += (size_t)sizes[i] * head.record_length;
    }
    set_number(packed->bytes + place, 8, packed->length);
    table = block_of((size_t)laz_c_table_room(count));
    if (laz_c_table_of(sizes, chunk == LAZ_COUNTED ? count : 0, counts, count, table.bytes, table.length, &written)
        != LAZ_DONE)
        fail("laz_c_table_of");
    put(packed, table.bytes, written);
    drop(&size_block);
    drop(&count_block);
    drop(&table);
    return 0;
}

static void say(uint32_t refusal, uint32_t bad_chunk)
{
    if (refusal == UINT32_MAX)
        printf("plain\n");
    else if (refusal == LAZ_BAD_CHUNK)
        printf("%u %u\n", (unsigned)refusal, (unsigned)bad_chunk);
    else
        printf("%u\n", (unsigned)refusal);
}

static void unpack_named(const char *name, const char *to)
{
    uint32_t bad_chunk = 0, refusal;
    struct buffer file = file_of(name), plain = {NULL, 0, 0};
    refusal = unpack(&file, &plain, &bad_chunk);
    if (refusal == 0)
        write_file(to, &plain);
    say(refusal, bad_chunk);
    free(file.bytes);
    free(plain.bytes);
}

static void pack_named(const char *name, const char *to, uint32_t chunk)
{
    uint32_t refusal;
    struct buffer file = file_of(name), packed = {NULL, 0, 0};
    refusal = pack(&file, chunk == 0 ? LAZ_COUNTED : chunk, &packed);
    if (refusal == 0)
        write_file(to, &packed);
    say(refusal, 0);
    free(file.bytes);
    free(packed.bytes);
}

static void unpack_all(void)
{
    char name[4096], to[4096 + 4];
    while (fgets(name, sizeof name, stdin) != NULL) {
        name[strcspn(name, "\n")] = 0;
        snprintf(to, sizeof to, "%s.out", name);
        unpack_named(name, to);
    }
}

static unsigned long cases;

static void expect(const char *what, uint32_t answer, uint32_t wanted)
{
    cases++;
    if (answer != wanted) {
        fprintf(stderr, "check: %s: answer %u in place of %u\n", what, (unsigned)answer, (unsigned)wanted);
        exit(9);
    }
}

/* Every byte of a block that a call may not write is this one. */
#define UNTOUCHED 0xa5

static void expect_untouched(const char *what, const struct block *block)
{
    for (size_t i = 0; i < block->length; i++)
        if (block->bytes[i] != UNTOUCHED) {
            fprintf(stderr, "check: %s: byte %zu was written\n", what, i);
            exit(9);
        }
}

static void chunk_arguments(uint8_t format, uint16_t extra)
{
    static const uint8_t lengths[4] = {20, 28, 26, 34};
    size_t length = (size_t)lengths[format] + extra, written = 77;
    struct block records = block_of(3 * length), out = block_of(3 * length);
    struct block chunk = block_of((size_t)laz_c_room(format, extra, 3)), less = block_of(chunk.length - 1);
    memset(records.bytes, 7, records.length);
    memset(out.bytes, UNTOUCHED, out.length);
    memset(less.bytes, UNTOUCHED, less.length);
    expect("pack to one byte less", laz_c_pack(format, extra, records.bytes, 3 * length, less.bytes, less.length,
                                               &written), LAZ_WRONG);
    expect("pack no record", laz_c_pack(format, extra, NULL, 0, chunk.bytes, chunk.length, &written), LAZ_WRONG);
    expect("pack to nothing", laz_c_pack(format, extra, records.bytes, 3 * length, NULL, 0, &written), LAZ_WRONG);
    for (size_t off = 1; off < length; off++)
        expect("pack a part of a record", laz_c_pack(format, extra, records.bytes + off, 3 * length - off,
                                                     chunk.bytes, chunk.length, &written), LAZ_WRONG);
    expect("pack format 4", laz_c_pack(4, extra, records.bytes, 3 * length, chunk.bytes, chunk.length, &written),
           LAZ_WRONG);
    expect("pack 193 extra bytes", laz_c_pack(format, 193, records.bytes, 3 * length, chunk.bytes, chunk.length,
                                              &written), LAZ_WRONG);
    expect_untouched("wrong arguments", &less);
    if (written != 77)
        fail("written was written");
    expect("pack", laz_c_pack(format, extra, records.bytes, 3 * length, chunk.bytes, chunk.length, &written),
           LAZ_DONE);
    expect("unpack no record", laz_c_unpack(format, extra, chunk.bytes, written, 0, NULL, 0), LAZ_WRONG);
    expect("unpack to nothing", laz_c_unpack(format, extra, chunk.bytes, written, 3, NULL, 0), LAZ_WRONG);
    expect("unpack one record less", laz_c_unpack(format, extra, chunk.bytes, written, 3, out.bytes, 2 * length),
           LAZ_WRONG);
    expect("unpack one byte less", laz_c_unpack(format, extra, chunk.bytes, written, 3, out.bytes, out.length - 1),
           LAZ_WRONG);
    expect("unpack the most records", laz_c_unpack(format, extra, chunk.bytes, written, UINT32_MAX, out.bytes,
                                                   out.length), LAZ_WRONG);
    expect("unpack format 255", laz_c_unpack(255, extra, chunk.bytes, written, 3, out.bytes, out.length), LAZ_WRONG);
    expect("unpack 65535 extra bytes", laz_c_unpack(format, 65535, chunk.bytes, written, 3, out.bytes, out.length),
           LAZ_WRONG);
    expect_untouched("wrong arguments", &out);
    expect("unpack nothing", laz_c_unpack(format, extra, NULL, 0, 3, out.bytes, out.length), LAZ_BAD);
    expect("unpack one byte fewer", laz_c_unpack(format, extra, chunk.bytes, written - 1, 3, out.bytes, out.length),
           LAZ_BAD);
    expect("unpack", laz_c_unpack(format, extra, chunk.bytes, written, 3, out.bytes, out.length), LAZ_DONE);
    if (memcmp(out.bytes, records.bytes, out.length) != 0)
        fail("other records");
    drop(&records);
    drop(&out);
    drop(&chunk);
    drop(&less);
}

static void table_arguments(void)
{
    uint32_t sizes[3] = {10, 20, 5}, counts[3] = {111, 222, 55}, read_sizes[3], read_counts[3], refusal = 0;
    uint8_t table[12 + 24 * 3];
    size_t written = 0;
    uint64_t total = 111 + 222 + 55;
    expect("a table of other lists", laz_c_table_of(sizes, 2, counts, 3, table, sizeof table, &written), LAZ_WRONG);
    expect("a table in less room", laz_c_table_of(sizes, 3, counts, 3, table, sizeof table - 1, &written), LAZ_WRONG);
    expect("a table in no room", laz_c_table_of(NULL, 0, NULL, 0, NULL, 0, &written), LAZ_WRONG);
    expect("a table", laz_c_table_of(sizes, 3, counts, 3, table, sizeof table, &written), LAZ_DONE);
    expect("its chunks", laz_c_chunks(table, written, LAZ_COUNTED, 35), 3);
    expect("its chunks by a part", laz_c_chunks(table, 7, LAZ_COUNTED, 35), 0);
    expect("fewer points than chunks", laz_c_chunks(table, written, LAZ_COUNTED, 2), 0);
    expect("chunks of 10 points", laz_c_chunks(NULL, 0, 10, 35), 4);
    expect("chunks of no points", laz_c_chunks(table, written, 0, 35), 0);
    expect("no chunk size", laz_c_table(table, written, 0, 35, total, read_sizes, 0, read_counts, 0, &refusal),
           LAZ_WRONG);
    expect("other lengths", laz_c_table(table, written, LAZ_COUNTED, 35, total, read_sizes, 3, read_counts, 2,
                                        &refusal), LAZ_WRONG);
    expect("null lists", laz_c_table(table, written, LAZ_COUNTED, 35, total, NULL, 0, NULL, 0, &refusal), LAZ_WRONG);
    expect("another sum", laz_c_table(table, written, LAZ_COUNTED, 35, total + 1, read_sizes, 3, read_counts, 3,
                                      &refusal), LAZ_BAD);
    expect("its cause", refusal, LAZ_CHUNK_SUM);
    expect("other points", laz_c_table(table, written, LAZ_COUNTED, 36, total, read_sizes, 3, read_counts, 3,
                                       &refusal), LAZ_BAD);
    expect("its cause", refusal, LAZ_POINT_SUM);
    expect("no table", laz_c_table(NULL, 0, LAZ_COUNTED, 0, 0, NULL, 0, NULL, 0, &refusal), LAZ_BAD);
    expect("its cause", refusal, LAZ_TABLE);
    expect("read", laz_c_table(table, written, LAZ_COUNTED, 35, total, read_sizes, 3, read_counts, 3, &refusal),
           LAZ_DONE);
    if (memcmp(sizes, read_sizes, sizeof sizes) != 0 || memcmp(counts, read_counts, sizeof counts) != 0)
        fail("other lists");
}

static void head_arguments(void)
{
    uint8_t bytes[227] = {'L', 'A', 'S', 'F'};
    struct laz_head head;
    uint32_t offset = 1, refusal = 1;
    uint8_t payload[LAZ_MAX_PAYLOAD];
    size_t written = 0;
    bytes[24] = 1;
    bytes[25] = 2;
    bytes[94] = 227;
    bytes[96] = 227;
    bytes[105] = 20;
    expect("no front of an empty file", laz_c_need(NULL, 0, 0, &offset, &refusal), LAZ_BAD);
    expect("its cause", refusal, LAZ_SHORT);
    expect("no front", laz_c_need(NULL, 0, 227, &offset, &refusal), LAZ_WRONG);
    expect("a front of 226 bytes", laz_c_need(bytes, 226, 227, &offset, &refusal), LAZ_WRONG);
    expect("a front longer than the file", laz_c_need(bytes, 227, 226, &offset, &refusal), LAZ_WRONG);
    expect("a front", laz_c_need(bytes, 227, 227, &offset, &refusal), LAZ_DONE);
    expect("its offset", offset, 227);
    expect("no head", laz_c_head(NULL, 0, 227, &head), LAZ_WRONG);
    expect("a head of 226 bytes", laz_c_head(bytes, 226, 227, &head), LAZ_WRONG);
    expect("a head of a smaller file", laz_c_head(bytes, 227, 226, &head), LAZ_WRONG);
    expect("a head", laz_c_head(bytes, 227, 227, &head), LAZ_DONE);
    expect("its record length", head.record_length, 20);
    expect("a head that is followed by bytes", laz_c_head(bytes, 227, 228, &head), LAZ_BAD);
    expect("its cause", head.refusal, LAZ_TRAILING);
    expect("a payload in less room", laz_c_vlr(0, 0, 1, payload, LAZ_MAX_PAYLOAD - 1, &written), LAZ_WRONG);
    expect("a payload in no room", laz_c_vlr(0, 0, 1, NULL, 0, &written), LAZ_WRONG);
    expect("a payload of format 4", laz_c_vlr(4, 0, 1, payload, sizeof payload, &written), LAZ_WRONG);
    expect("a payload of 193 extra bytes", laz_c_vlr(0, 193, 1, payload, sizeof payload, &written), LAZ_WRONG);
    expect("a payload of no chunk size", laz_c_vlr(0, 0, 0, payload, sizeof payload, &written), LAZ_WRONG);
    expect("a payload", laz_c_vlr(3, 192, LAZ_COUNTED, payload, sizeof payload, &written), LAZ_DONE);
    expect("its length", (uint32_t)written, LAZ_MAX_PAYLOAD);
}

/* Each allocation of each call fails in its turn: the call answers LAZ_NO_MEMORY, and has written nothing. */
static void no_memory(void)
{
    uint8_t records[3 * 38], out[sizeof records], chunk[4096], table[12 + 24], bytes[227] = {'L', 'A', 'S', 'F'};
    uint32_t counts[1] = {90}, sizes[1], read[1], refusal;
    size_t length = sizeof records, written = 0, table_length = 0;
    struct laz_head head;
    unsigned long of_call[5] = {0};
    memset(records, 9, sizeof records);
    bytes[24] = 1;
    bytes[94] = 227;
    bytes[96] = 227;
    bytes[105] = 20;
    expect("pack", laz_c_pack(3, 4, records, length, chunk, sizeof chunk, &written), LAZ_DONE);
    expect("a table", laz_c_table_of(NULL, 0, counts, 1, table, sizeof table, &table_length), LAZ_DONE);
    for (int call = 0; call < 5; call++) {
        for (unsigned long n = 1;; n++) {
            uint32_t answer = LAZ_WRONG;
            size_t again = 5;
            memset(out, UNTOUCHED, sizeof out);
            asked = 0;
            fails_at = n;
            if (call == 0)
                answer = laz_c_unpack(3, 4, chunk, written, 3, out, length);
            else if (call == 1)
                answer = laz_c_pack(3, 4, records, length, chunk, sizeof chunk, &again);
            else if (call == 2)
                answer = laz_c_table_of(NULL, 0, counts, 1, table, sizeof table, &again);
            else if (call == 3)
                answer = laz_c_table(table, table_length, 50000, 3, 90, sizes, 1, read, 1, &refusal);
            else
                answer = laz_c_head(bytes, 227, 227, &head);
            fails_at = 0;
            if (asked < n) {
                expect("a call with enough memory", answer, LAZ_DONE);
                of_call[call] = n - 1;
                break;
            }
            expect("a call without memory", answer, LAZ_NO_MEMORY);
            if (call == 0)
                for (size_t i = 0; i < sizeof out; i++)
                    if (out[i] != UNTOUCHED)
                        fail("records were written without memory");
            if ((call == 1 || call == 2) && again != 5)
                fail("a number was written without memory");
        }
        if (of_call[call] == 0)
            fail("a call asks for no memory");
    }
}

static void arguments(void)
{
    static const uint16_t extras[4] = {0, 1, 4, 192};
    for (uint8_t format = 0; format < 4; format++)
        for (int i = 0; i < 4; i++)
            chunk_arguments(format, extras[i]);
    expect("no room for format 4", (uint32_t)laz_c_room(4, 0, 9), 0);
    expect("no room for 193 extra bytes", (uint32_t)laz_c_room(0, 193, 9), 0);
    expect("no room for no point", (uint32_t)laz_c_room(0, 0, 0), 0);
    table_arguments();
    head_arguments();
    no_memory();
    printf("%lu\n", cases);
}

int main(int count, char **words)
{
    if (count == 4 && strcmp(words[1], "unpack") == 0)
        unpack_named(words[2], words[3]);
    else if (count == 5 && strcmp(words[1], "pack") == 0)
        pack_named(words[2], words[3], (uint32_t)strtoul(words[4], NULL, 10));
    else if (count == 2 && strcmp(words[1], "all") == 0)
        unpack_all();
    else if (count == 2 && strcmp(words[1], "arguments") == 0)
        arguments();
    else
        fail("usage");
    return fflush(stdout) == 0 ? 0 : 9;
}
