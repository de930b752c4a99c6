/**
 * @file las.h
 * The coder of LAZ, and whole LAS and LAZ files.
 *
 * These calls read and write the parts of a packed LAS file: its head, the laszip VLR, the chunk table, and the chunks
 * of point records. They read LAS 1.0 to 1.4 with the point data formats 0 to 3 and 0 to 192 extra bytes a record, and
 * packed points as LASzip writes them, with items of version 2, in chunks of a fixed number of points or of a number of
 * their own. The calls `laz_c_...` are proved. With them whole files are the caller's: it reads them, walks the chunks,
 * and may do so in several threads. The calls `laz_reader_...` and `laz_writer_...`, at the end, do this for it.
 *
 * A packed file is, from its first byte:
 *
 *   the public header block and the VLRs      laz_c_need, laz_c_head
 *   at `offset`: 8 bytes, the place of the chunk table, from the start of the file, lowest byte first; if they are
 *                eight times FF, the place stands in the last eight bytes of the file
 *   the chunks, one after another             laz_c_unpack, laz_c_pack
 *   the chunk table                           laz_c_chunks, laz_c_table, laz_c_table_of
 *
 * Every call tests its arguments and answers LAZ_WRONG for those that it does not take. What the caller owes is what C
 * cannot test: each pointer is valid for as many elements as the length after it says, and what a call writes overlaps
 * nothing else that it is given. A null pointer is fine where the length is 0. No pointer to a single number or struct
 * is null.
 *
 * No call keeps anything between calls, so calls may run side by side in several threads. Memory is taken by malloc and
 * free of the program, in the calls that may answer LAZ_NO_MEMORY alone, and is given back before they return. They are
 * not to be called from a signal handler.
 *
 * All sizes and places are in bytes.
 */
#ifndef LAS_H
#define LAS_H

#include <stddef.h>
#include <stdint.h>

#ifdef __cplusplus
extern "C" {
#endif

/** The version of this header, as text, and as ten thousand times the major number, a hundred times the minor
 * number, and the number of the patch. (LAZ_VERSION, below, is a cause for which a file is refused.) */
#define LAZ_LIBRARY_VERSION "1.2.0"
#define LAZ_LIBRARY_VERSION_NUMBER 10200

/** The version of the library that the program runs with, in the same form as LAZ_LIBRARY_VERSION_NUMBER. */
uint32_t laz_c_version(void);

/** What a call answers. */
enum laz_answer {
    /** Done: what the call writes is whole. */
    LAZ_DONE = 0,
    /** Out of memory. Nothing is written. */
    LAZ_NO_MEMORY = 1,
    /** The bytes are not what they are taken for. */
    LAZ_BAD = 2,
    /** Wrong arguments: a point data format above 3, more than 192 extra bytes, or a length that does not fit. Nothing
     * is written. */
    LAZ_WRONG = 3
};

/** Why a file is refused. A file has `size` bytes, header size H, offset to the point data O, N points, point data
 * format byte f and record length L. It is packed if bit 7 of f is set, else plain. The cause of a file is the first
 * that holds, in this order: LAZ_SHORT to LAZ_RECORD_LENGTH, LAZ_EXTENDED, LAZ_POINT_COUNTS, LAZ_COUNT to
 * LAZ_CHUNK_SUM, LAZ_POINT_SUM. Numbers that are not here are of other commands of `las`. */
enum laz_refusal {
    LAZ_SHORT = 1,           /**< the file has fewer than 227 bytes */
    LAZ_MAGIC = 2,           /**< it does not begin with `LASF` */
    LAZ_VERSION = 3,         /**< its version is not 1.0 to 1.4 */
    LAZ_HEADER_SIZE = 4,     /**< H is below the length of the version's public header block: 227, 235 or 375 */
    LAZ_OFFSET = 5,          /**< O is below H, above the size of the file, or above 2^24 (plain files: 2^24 - 112) */
    LAZ_VLRS = 6,            /**< the VLRs pass O */
    LAZ_FORMAT = 7,          /**< the point data format is above 3 */
    LAZ_RECORD_LENGTH = 8,   /**< L is below the length of the format, or above it by more than 192 */
    LAZ_COUNT = 9,           /**< plain: the file ends before its last point record */
    LAZ_TRAILING = 10,       /**< plain: the file goes on after its last point record */
    LAZ_STRAY_VLR = 11,      /**< plain: there is a laszip VLR */
    LAZ_NO_VLR = 12,         /**< packed: the number of laszip VLRs is not one */
    LAZ_VLR_SHAPE = 13,      /**< packed: the payload of the laszip VLR has another length than its items need */
    LAZ_COMPRESSOR = 14,     /**< packed: the compressor is not 2, or the coder not 0 */
    LAZ_ITEMS = 15,          /**< packed: the items are not those of the format and of L, in version 2 */
    LAZ_CHUNK_SIZE = 16,     /**< packed: the chunk size is 0, or a chunk would have more than 250,000 points */
    LAZ_TOO_MANY_CHUNKS = 17,/* packed: there are more than 2^24 chunks */
    LAZ_TABLE_POINTER = 18,  /**< packed: the place of the chunk table is outside the file; no call here answers it */
    LAZ_TABLE = 19,          /**< packed: the chunk table is not whole */
    LAZ_CHUNK_SUM = 20,      /**< packed: the sizes of the chunks do not add up */
    LAZ_BAD_CHUNK = 21,      /**< packed: a chunk does not hold its records; laz_c_unpack answers LAZ_BAD for it */
    LAZ_POINT_SUM = 24,      /**< packed: the chunks' own numbers of points are out of range, or do not add up */
    LAZ_EXTENDED = 25,       /**< LAS 1.4: there are extended VLRs */
    LAZ_POINT_COUNTS = 26    /* LAS 1.4: the number of points is 2^32 or more, or the two numbers differ */
};

/** The chunk size of a file whose chunk table has a number of points for each chunk. */
#define LAZ_COUNTED UINT32_C(4294967295)

/** The most points of a chunk that is read, and the most chunks of a file. */
#define LAZ_MAX_CHUNK_POINTS UINT32_C(250000)
#define LAZ_MAX_CHUNKS UINT32_C(16777216)

/** How many bytes of a file laz_c_need reads, and the length of the longest payload that laz_c_vlr writes. */
#define LAZ_FRONT 227
#define LAZ_MAX_PAYLOAD 58

/** What the head of a file says. If the file is refused, all numbers but `refusal` are 0. */
struct laz_head {
    uint32_t refusal;       /**< 0, or a number of enum laz_refusal */
    uint32_t offset;        /**< the offset to the point data */
    uint32_t points;        /**< the number of points */
    uint32_t chunk;         /**< the points of a chunk, LAZ_COUNTED, or 0 if the points are plain */
    uint32_t vlr_count;     /**< the number of VLRs, the first of which begins at `header_size` */
    uint32_t laszip_start;  /**< the place of the laszip VLR; its payload begins 54 bytes later; 0 if there is none */
    uint16_t laszip_length; /**< the length of its payload */
    uint16_t header_size;   /**< the header size */
    uint16_t record_length; /**< the length of a point record */
    uint16_t extra;         /**< how many bytes of it are extra: those after the bytes of its format */
    uint8_t minor;          /**< the minor version: 0 to 4 */
    uint8_t format;         /**< the point data format: 0 to 3 */
};

/**
 * How many bytes at the front of a file its head takes.
 *
 * `front` is the first 227 bytes of the file, or all of them if it has fewer, and `size` the size of the file.
 *
 * LAZ_DONE: `*offset` is the number of bytes, from 227 to 2^24, and at most `size`.
 * LAZ_BAD: the file is refused; `*refusal` is LAZ_SHORT to LAZ_OFFSET. The other of the two numbers is 0.
 * LAZ_WRONG: `front` has another length.
 */
uint32_t laz_c_need(const uint8_t *front, size_t front_length, uint64_t size, uint32_t *offset, uint32_t *refusal);

/**
 * Reads the head of a file of `size` bytes. `bytes` is as many bytes of the file as laz_c_need answered, from its first
 * one on.
 *
 * LAZ_DONE: `*head` is what the head says.
 * LAZ_BAD: the file is refused; `head->refusal` is LAZ_VLRS to LAZ_TOO_MANY_CHUNKS, LAZ_EXTENDED or LAZ_POINT_COUNTS.
 * LAZ_NO_MEMORY.
 * LAZ_WRONG: laz_c_need refuses the first 227 of the bytes, or answers another number than `length`.
 */
uint32_t laz_c_head(const uint8_t *bytes, size_t length, uint64_t size, struct laz_head *head);

/**
 * How many chunks a chunk table can have. `bytes` is the file from the table on; the first eight of the bytes are
 * enough. `chunk` and `points` are those of the head.
 *
 * The answer is `points` divided by `chunk`, rounded up; or if `chunk` is LAZ_COUNTED, the number in the table, or 0 if
 * the table is refused for it. It is 0 if `chunk` is 0.
 */
uint32_t laz_c_chunks(const uint8_t *bytes, size_t length, uint32_t chunk, uint32_t points);

/**
 * Reads the chunk table that `bytes` begin with. The bytes after the table are not read. A table of n chunks has at
 * most 12 + 24 n bytes, so it is enough to give that many. `total` is the number of bytes from `offset` + 8 to the
 * table.
 *
 * LAZ_DONE: `sizes` has the number of points of each chunk, and `counts` its number of bytes. The first chunk begins at
 * `offset` + 8, and each other one after the one before it. They add up to `points` and to `total`.
 * LAZ_BAD: the table is refused; `*refusal` is LAZ_TABLE, LAZ_CHUNK_SUM or LAZ_POINT_SUM.
 * LAZ_NO_MEMORY.
 * LAZ_WRONG: `chunk` is 0, or `sizes` or `counts` has another length than laz_c_chunks answers.
 */
uint32_t laz_c_table(const uint8_t *bytes, size_t length, uint32_t chunk, uint32_t points, uint64_t total,
                     uint32_t *sizes, size_t sizes_length, uint32_t *counts, size_t counts_length, uint32_t *refusal);

/**
 * How many bytes are enough for a chunk of this many points. It is 0 for no points, for a format above 3 and for more
 * than 192 extra bytes.
 */
uint64_t laz_c_room(uint8_t format, uint16_t extra, uint32_t points);

/**
 * Unpacks one chunk of `count` records, at least 1, to `records`. `length` is exactly `count` times the length of a
 * record: 20, 28, 26 or 34 bytes for the formats 0 to 3, and `extra` more. `bytes` is exactly the chunk.
 *
 * LAZ_DONE: `records` is what the chunk holds, as in a plain file.
 * LAZ_BAD: the chunk holds no list of this many records. `records` is then unspecified.
 * LAZ_NO_MEMORY.
 * LAZ_WRONG.
 */
uint32_t laz_c_unpack(uint8_t format, uint16_t extra, const uint8_t *bytes, size_t bytes_length, uint32_t count,
                      uint8_t *records, size_t length);

/**
 * Packs whole records, at least one, into one chunk at the front of `chunk`. `room` is at least what laz_c_room answers
 * for the records.
 *
 * LAZ_DONE: `*written` is the number of bytes of the chunk. Those after it stay.
 * LAZ_NO_MEMORY.
 * LAZ_WRONG.
 */
uint32_t laz_c_pack(uint8_t format, uint16_t extra, const uint8_t *records, size_t length, uint8_t *chunk, size_t room,
                    size_t *written);

/**
 * Writes the payload of the laszip VLR to the front of `payload`. `chunk` is the number of points of a chunk, at least
 * 1, or LAZ_COUNTED. `room` is at least 58.
 *
 * The VLR has the user ID `laszip encoded`, with two zeros, and the record ID 22204. A file with it has bit 7 of the
 * point data format byte set.
 *
 * LAZ_DONE: `*written` is the length of the payload: 40, 46, 52 or 58. The bytes after it stay.
 * LAZ_WRONG.
 */
uint32_t laz_c_vlr(uint8_t format, uint16_t extra, uint32_t chunk, uint8_t *payload, size_t room, size_t *written);

/** How many bytes are enough for a chunk table of this many chunks: 12, and 24 for each. */
uint64_t laz_c_table_room(uint32_t chunks);

/**
 * Writes a chunk table to the front of `table`. `counts` has the number of bytes of each chunk, of at most 2^24. If the
 * chunk size is LAZ_COUNTED, `sizes` has the number of points of each; else it is empty: `sizes_length` is 0. `room` is
 * at least what laz_c_table_room answers.
 *
 * LAZ_DONE: `*written` is the number of bytes of the table. Those after it stay.
 * LAZ_NO_MEMORY.
 * LAZ_WRONG.
 */
uint32_t laz_c_table_of(const uint32_t *sizes, size_t sizes_length, const uint32_t *counts, size_t counts_length,
                        uint8_t *table, size_t room, size_t *written);

/** @name Whole files These calls read and write whole files, plain and packed, over the calls above. They are
 * tested, and not proved. What they read and write is what the program `las` reads and writes, byte for byte. A
 * reader or a writer is used by one thread at a time; different ones may be used side by side. There is no state
 * beside them. What opens one gives it to the caller, who gives it back by laz_reader_close or laz_writer_close,
 * also after an error. All pointers that a call takes have to be valid until it returns, and no longer, unless it
 * says so. Files are reached by calls of the caller's (struct laz_io), or are named by a path. Over calls of the
 * caller's nothing of the system is used but malloc and free; the calls with `_path` need POSIX and threads, and
 * stand in an object of their own. */
/**@{*/

/** Answers beside those of enum laz_answer. */
enum laz_file_answer {
    /** The file could not be opened or read; laz_error.system has what the system said. */
    LAZ_READ_FAILED = 4,
    /** The file could not be created, written, synced or moved to its name; laz_error.system has what the system
     * said. */
    LAZ_WRITE_FAILED = 5
};

/** The number of no chunk. */
#define LAZ_NO_CHUNK UINT32_C(4294967295)

/** Why a call did not answer LAZ_DONE. */
struct laz_error {
    uint32_t answer; /**< what the call answered: LAZ_DONE to LAZ_WRITE_FAILED */
    uint32_t cause;  /**< for LAZ_BAD why the file is refused, a number of enum laz_refusal; else 0 */
    uint32_t chunk;  /**< for LAZ_BAD_CHUNK the number of the chunk, from 0; else LAZ_NO_CHUNK */
    int system;      /**< what a call of the caller's answered; with a path, errno; 0 if there is nothing to say */
};

/** The name of a cause, as `BadChunk`, or `unknown`. It is valid as long as the program runs. */
const char *laz_cause_text(uint32_t cause);

/**
 * Writes what an error says, of a file of this name, as a text that ends with 0, and is cut to `room` bytes with it:
 * `a.laz: refused: 21 BadChunk 3`. Answers the length of the whole text without its end. `name` may be NULL.
 */
size_t laz_error_text(const struct laz_error *error, const char *name, char *text, size_t room);

/** A file that is reached by calls of the caller's. Each answers 0 if it is done, and another number, which is kept in
 * laz_error.system, if it failed. What is not needed may be NULL. The struct is copied; its context is the caller's. */
struct laz_io {
    void *context; /**< what the calls are given first */
    uint64_t size; /**< the size of the file that is read, in bytes; a writer does not look at it */
    /** Reads exactly `length` bytes from the place `at` on. With a pool it is called by its threads, side by side. */
    int (*read)(void *context, uint64_t at, uint8_t *bytes, size_t length);
    /** Writes `length` bytes at the place `at`. All but the head come in order; the head is written again at the
     * end. */
    int (*write)(void *context, uint64_t at, const uint8_t *bytes, size_t length);
    /** Called once, last: `whole` is 1 if what was written is whole, and 0 if it is not, or if a file was read. */
    int (*end)(void *context, int whole);
};

/** Threads of the caller's. The struct is copied; its context is the caller's. */
struct laz_pool {
    void *context;    /**< what `run` is given first */
    unsigned threads; /**< how many jobs run side by side: 1 to 256 */
    /** Calls `job` with `argument` and each number from 0 on and below `count`, once each, in any order and by any
     * threads, and returns when all calls have returned. */
    void (*run)(void *context, void (*job)(void *argument, size_t number), void *argument, size_t count);
};

/** A file that is read. */
typedef struct laz_reader laz_reader;

/**
 * Opens a file. `pool` may be NULL: then the calling thread does all. `*reader` is NULL unless the call answers
 * LAZ_DONE.
 *
 * A packed file takes 4 bytes a chunk while it is open, or 8 if its chunks have numbers of points of their own, and
 * four times as much while it is opened.
 *
 * LAZ_DONE. LAZ_BAD, LAZ_NO_MEMORY, LAZ_READ_FAILED: `*error` says why. LAZ_WRONG: there is no `read`, or a pool
 * without `run` or of 0 or more than 256 threads. In all these cases `io->end` was called if the answer is not
 * LAZ_WRONG.
 */
uint32_t laz_reader_open(const struct laz_io *io, const struct laz_pool *pool, laz_reader **reader,
                         struct laz_error *error);

/** Opens the regular file of this name, with `threads` threads, 1 to 256. As laz_reader_open. */
uint32_t laz_reader_open_path(const char *name, unsigned threads, laz_reader **reader, struct laz_error *error);

/** What the head says. It is valid until the reader is closed. */
const struct laz_head *laz_reader_head(const laz_reader *reader);

/** The head of the plain file, without a laszip VLR: what laz_writer_create takes. `*length` is its number of bytes.
 * It is valid until the reader is closed. */
const uint8_t *laz_reader_plain_head(const laz_reader *reader, size_t *length);

/** The number of chunks; 0 if the points are plain. */
uint32_t laz_reader_chunks(const laz_reader *reader);

/**
 * Reads the records from the place `start` on and before `stop` to `records`, which has room for them: `stop - start`
 * times laz_head.record_length bytes. Only the chunks that they are in are read.
 *
 * LAZ_DONE. LAZ_BAD: a chunk is bad; the records before it are there, and `*whole` is their number. LAZ_NO_MEMORY,
 * LAZ_READ_FAILED: `*whole` records are there. LAZ_WRONG: `start` is above `stop`, or `stop` above the number of
 * points. What stands after the `*whole` records is unspecified.
 */
uint32_t laz_reader_records(laz_reader *reader, uint32_t start, uint32_t stop, uint8_t *records, uint32_t *whole,
                            struct laz_error *error);

/**
 * Reads the next records, at most `most`, from the first one on: `*count` is their number, and 0 at the end. The
 * answers are those of laz_reader_records; after another one than LAZ_DONE the next call goes on after the `*count`
 * records.
 */
uint32_t laz_reader_next(laz_reader *reader, uint8_t *records, uint32_t most, uint32_t *count, struct laz_error *error);

/** Has laz_reader_next go on with the record of this place: at most the number of points, else it answers LAZ_WRONG. */
uint32_t laz_reader_seek(laz_reader *reader, uint32_t place);

/** Closes a reader, and frees it. NULL is fine. */
void laz_reader_close(laz_reader *reader);

/** A file that is written. */
typedef struct laz_writer laz_writer;

/** What the head gets of the records that are written; else it stays as it was given. */
enum laz_sets {
    /** The number of points, and the numbers by return. */
    LAZ_SETS_COUNTS = 1,
    /** The least and greatest x, y and z, where the head's are not right to half a scale. */
    LAZ_SETS_BOX = 2
};

/**
 * Begins a file. `head` is that of a plain file, as of laz_reader_plain_head: its VLRs and the bytes up to the points
 * stand in it. `chunk` is the number of points of a chunk, 1 to LAZ_MAX_CHUNK_POINTS, or 0 for plain points. `sets` is
 * a sum of enum laz_sets. `pool` may be NULL.
 *
 * It takes two chunks a thread, as records and packed.
 *
 * LAZ_DONE. LAZ_BAD: the head is refused, for the cause in `*error`. LAZ_NO_MEMORY, LAZ_WRITE_FAILED. LAZ_WRONG: there
 * is no `write`, or `chunk`, `sets` or the pool is out of range. In all these cases `io->end` was called if the answer
 * is not LAZ_WRONG, and `*writer` is NULL unless it is LAZ_DONE.
 */
uint32_t laz_writer_create(const struct laz_io *io, const struct laz_pool *pool, const uint8_t *head, size_t length,
                           uint32_t chunk, uint32_t sets, laz_writer **writer, struct laz_error *error);

/**
 * Begins a file of this name, with `threads` threads, 1 to 256. As laz_writer_create.
 *
 * The file is written under another name beside this one, and takes this name when laz_writer_finish has made it whole
 * and synced it. Until then an older file stays; so do its mode and, where the system allows, its owner and group. A
 * symbolic link stays, and what it names is replaced. What is there and is no regular file is refused.
 */
uint32_t laz_writer_create_path(const char *name, unsigned threads, const uint8_t *head, size_t length, uint32_t chunk,
                                uint32_t sets, laz_writer **writer, struct laz_error *error);

/**
 * Takes `count` records, which may be changed after the call.
 *
 * LAZ_DONE. LAZ_NO_MEMORY, LAZ_WRITE_FAILED: the writer can only be closed. LAZ_WRONG: the file was finished, or has
 * failed, or would have 2^32 points or more, or more than LAZ_MAX_CHUNKS chunks.
 */
uint32_t laz_writer_put(laz_writer *writer, const uint8_t *records, uint32_t count, struct laz_error *error);

/**
 * Makes the file whole: the last chunk, the chunk table, the head. With a path it has its name then, and is on the
 * disk.
 *
 * LAZ_DONE. LAZ_NO_MEMORY, LAZ_WRITE_FAILED. LAZ_WRONG: it was finished or has failed, or without LAZ_SETS_COUNTS the
 * head has another number of points.
 */
uint32_t laz_writer_finish(laz_writer *writer, struct laz_error *error);

/** Closes a writer, and frees it. A file that is not finished is given up: with a path nothing is left of it, and what
 * stood under the name stays. NULL is fine. */
void laz_writer_close(laz_writer *writer);

/**@}*/

#ifdef __cplusplus
}
#endif

#endif
