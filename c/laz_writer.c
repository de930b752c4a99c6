/* Writers of whole files, over calls of the caller's. Nothing of the system is used but malloc and free. */
#include "laz_file.h"

#define CHUNKS_A_THREAD 2

enum state { OPEN, FINISHED, FAILED };

struct laz_writer {
    struct laz_io io;
    struct laz_pool pool;
    enum state state;
    int ended;     /* whether the caller was told that it is the end */
    uint8_t *head; /* of the plain file */
    size_t length;
    struct laz_head says;
    uint32_t chunk, sets;
    uint64_t points;
    uint64_t returns[8];
    int32_t least[3], greatest[3];
    uint64_t at;                    /* where the next bytes go */
    uint8_t *waiting;               /* records that are not packed yet */
    size_t filled, room;            /* how many, and for how many there is room */
    uint8_t *packed;                /* room for as many chunks */
    size_t packed_room, batch;
    size_t *written;                /* the bytes of each of them */
    uint32_t *answers;
    const uint8_t *source;          /* the records that are packed now, and how many */
    size_t source_count;
    uint32_t *counts;               /* the bytes of each chunk of the file */
    uint32_t chunks, counts_room;
};

/* What a writer answers from now on. */
static uint32_t fail(laz_writer *writer, struct laz_error *error, uint32_t answer, int system)
{
    writer->state = FAILED;
    return failed(error, answer, 0, LAZ_NO_CHUNK, system);
}

static uint32_t write_at(laz_writer *writer, uint64_t at, const uint8_t *bytes, size_t length, struct laz_error *error)
{
    int said = length == 0 ? 0 : writer->io.write(writer->io.context, at, bytes, length);
    return said == 0 ? LAZ_DONE : fail(writer, error, LAZ_WRITE_FAILED, said);
}

static uint32_t put_bytes(laz_writer *writer, const uint8_t *bytes, size_t length, struct laz_error *error)
{
    uint32_t answer = write_at(writer, writer->at, bytes, length, error);
    writer->at += length;
    return answer;
}

/* Reads the head that the caller gave, as that of a plain file of as many points as it says. */
static uint32_t read_head(laz_writer *writer, const uint8_t *head, size_t length, struct laz_error *error)
{
    uint32_t offset, cause, answer;
    uint64_t points, size;
    if (length < LAZ_FRONT)
        return failed(error, LAZ_BAD, LAZ_SHORT, LAZ_NO_CHUNK, 0);
    points = number_at(head + 107, 4);
    if (head[25] == 4 && points == 0 && length >= 375)
        points = number_at(head + 247, 8);
    size = length + points % (UINT64_C(1) << 32) * number_at(head + 105, 2);
    if (laz_c_need(head, LAZ_FRONT, size, &offset, &cause) != LAZ_DONE)
        return failed(error, LAZ_BAD, cause, LAZ_NO_CHUNK, 0);
    if (offset != length)
        return failed(error, LAZ_BAD, LAZ_OFFSET, LAZ_NO_CHUNK, 0);
    answer = laz_c_head(head, length, size, &writer->says);
    if (answer == LAZ_BAD)
        return failed(error, LAZ_BAD, writer->says.refusal, LAZ_NO_CHUNK, 0);
    if (answer == LAZ_DONE && writer->says.chunk != 0)
        return failed(error, LAZ_BAD, LAZ_STRAY_VLR, LAZ_NO_CHUNK, 0);
    if (answer == LAZ_DONE) {
        writer->head = items_of(length, 1);
        writer->length = length;
        if (writer->head != NULL)
            memcpy(writer->head, head, length);
    }
    return answer == LAZ_DONE && writer->head != NULL ? LAZ_DONE : no_memory(error);
}

/* Where the VLRs of the head end. */
static size_t vlrs_end(const laz_writer *writer)
{
    size_t at = writer->says.header_size;
    for (uint32_t i = 0; i < writer->says.vlr_count; i++)
        at += VLR_SIZE + (size_t)number_at(writer->head + at + 20, 2);
    return at;
}

/* Writes the bytes before the points: the head, and for packed points the laszip VLR, and the place of the table. */
static uint32_t write_front(laz_writer *writer, uint64_t table, struct laz_error *error)
{
    uint8_t vlr[VLR_SIZE + LAZ_MAX_PAYLOAD] = {0}, *front;
    size_t end = vlrs_end(writer), payload = 0, more, at = 0;
    uint32_t answer;
    if (writer->chunk == 0)
        return write_at(writer, 0, writer->head, writer->length, error);
    memcpy(vlr + 2, LASZIP_USER, sizeof LASZIP_USER - 1);
    put_number(vlr + 18, 2, LASZIP_RECORD);
    memcpy(vlr + 22, "laszip version 2 items", 22);
    if (laz_c_vlr(writer->says.format, writer->says.extra, writer->chunk, vlr + VLR_SIZE, LAZ_MAX_PAYLOAD, &payload)
        != LAZ_DONE)
        return fail(writer, error, LAZ_WRONG, 0);
    put_number(vlr + 20, 2, payload);
    more = VLR_SIZE + payload;
    front = items_of(writer->length + more + 8, 1);
    if (front == NULL)
        return fail(writer, error, LAZ_NO_MEMORY, 0);
    memcpy(front, writer->head, end);
    memcpy(front + end, vlr, more);
    memcpy(front + end + more, writer->head + end, writer->length - end);
    at = writer->length + more;
    put_number(front + 96, 4, at);
    put_number(front + 100, 4, (uint64_t)writer->says.vlr_count + 1);
    front[104] |= 128;
    put_number(front + at, 8, table);
    answer = write_at(writer, 0, front, at + 8, error);
    writer->at = writer->at == 0 ? at + 8 : writer->at;
    free(front);
    return answer;
}

static uint32_t make_rooms(laz_writer *writer, struct laz_error *error)
{
    size_t size = writer->says.record_length;
    writer->batch = CHUNKS_A_THREAD * (size_t)threads_of(&writer->pool);
    writer->room = writer->batch * writer->chunk;
    writer->packed_room = (size_t)laz_c_room(writer->says.format, writer->says.extra, writer->chunk);
    writer->waiting = items_of(writer->room, size);
    writer->packed = items_of(writer->batch, writer->packed_room);
    writer->written = items_of(writer->batch, sizeof *writer->written);
    writer->answers = items_of(writer->batch, sizeof *writer->answers);
    return writer->waiting && writer->packed && writer->written && writer->answers ? LAZ_DONE : no_memory(error);
}

uint32_t laz_writer_create(const struct laz_io *io, const struct laz_pool *pool, const uint8_t *head, size_t length,
                           uint32_t chunk, uint32_t sets, laz_writer **writer, struct laz_error *error)
{
    laz_writer *made;
    uint32_t answer;
    *writer = NULL;
    if (io == NULL || io->write == NULL || !is_pool(pool) || chunk > LAZ_MAX_CHUNK_POINTS
        || sets > (LAZ_SETS_COUNTS | LAZ_SETS_BOX))
        return wrong(error);
    made = calloc(1, sizeof *made);
    if (made == NULL) {
        if (io->end != NULL)
            io->end(io->context, 0);
        return no_memory(error);
    }
    made->io = *io;
    made->pool = pool == NULL ? (struct laz_pool){NULL, 1, NULL} : *pool;
    made->chunk = chunk;
    made->sets = sets;
    for (int axis = 0; axis < 3; axis++) {
        made->least[axis] = INT32_MAX;
        made->greatest[axis] = INT32_MIN;
    }
    answer = read_head(made, head, length, error);
    if (answer == LAZ_DONE && chunk > 0)
        answer = make_rooms(made, error);
    if (answer == LAZ_DONE)
        answer = write_front(made, 0, error);
    if (answer != LAZ_DONE) {
        laz_writer_close(made);
        return answer;
    }
    if (chunk == 0)
        made->at = length;
    *writer = made;
    return done(error);
}

/* Counts records by return, and widens the box by them. */
static void count_records(laz_writer *writer, const uint8_t *records, uint32_t count)
{
    size_t size = writer->says.record_length;
    for (uint32_t i = 0; i < count; i++, records += size) {
        writer->returns[records[14] & 7]++;
        for (size_t axis = 0; axis < 3; axis++) {
            int32_t raw;
            memcpy(&raw, records + 4 * axis, 4);
            if (raw < writer->least[axis])
                writer->least[axis] = raw;
            if (raw > writer->greatest[axis])
                writer->greatest[axis] = raw;
        }
    }
}

static void pack_chunk(void *argument, size_t number)
{
    laz_writer *writer = argument;
    size_t size = writer->says.record_length, first = number * writer->chunk, left = writer->source_count - first;
    size_t count = left < writer->chunk ? left : writer->chunk;
    writer->answers[number] =
        laz_c_pack(writer->says.format, writer->says.extra, writer->source + first * size, count * size,
                   writer->packed + number * writer->packed_room, writer->packed_room, &writer->written[number]);
}

static uint32_t note_chunk(laz_writer *writer, size_t bytes, struct laz_error *error)
{
    if (writer->chunks == writer->counts_room) {
        uint32_t room = writer->counts_room < 512 ? 1024 : 2 * writer->counts_room, *more;
        more = realloc(writer->counts, room * sizeof *more);
        if (more == NULL)
            return fail(writer, error, LAZ_NO_MEMORY, 0);
        writer->counts = more;
        writer->counts_room = room;
    }
    writer->counts[writer->chunks++] = (uint32_t)bytes;
    return LAZ_DONE;
}

/* Packs records, at most as many as there is room for, and writes their chunks. */
static uint32_t pack_records(laz_writer *writer, const uint8_t *records, size_t count, struct laz_error *error)
{
    size_t chunks = (count + writer->chunk - 1) / writer->chunk;
    uint32_t answer = LAZ_DONE;
    if (writer->chunks + chunks > LAZ_MAX_CHUNKS)
        return fail(writer, error, LAZ_WRONG, 0);
    writer->source = records;
    writer->source_count = count;
    run_jobs(&writer->pool, pack_chunk, writer, chunks);
    for (size_t i = 0; i < chunks && answer == LAZ_DONE; i++) {
        if (writer->answers[i] != LAZ_DONE)
            return fail(writer, error, writer->answers[i], 0);
        answer = note_chunk(writer, writer->written[i], error);
        if (answer == LAZ_DONE)
            answer = put_bytes(writer, writer->packed + i * writer->packed_room, writer->written[i], error);
    }
    return answer;
}

/* Takes records to pack: as they stand if they fill all room, else by those that wait. */
static uint32_t take_records(laz_writer *writer, const uint8_t *records, size_t count, struct laz_error *error)
{
    size_t size = writer->says.record_length;
    uint32_t answer = LAZ_DONE;
    while (count > 0 && answer == LAZ_DONE) {
        size_t part = writer->room - writer->filled;
        if (writer->filled == 0 && count >= writer->room) {
            answer = pack_records(writer, records, part, error);
        } else {
            part = count < part ? count : part;
            memcpy(writer->waiting + writer->filled * size, records, part * size);
            writer->filled += part;
            if (writer->filled == writer->room) {
                writer->filled = 0;
                answer = pack_records(writer, writer->waiting, writer->room, error);
            }
        }
        records += part * size;
        count -= part;
    }
    return answer;
}

uint32_t laz_writer_put(laz_writer *writer, const uint8_t *records, uint32_t count, struct laz_error *error)
{
    uint32_t answer = LAZ_DONE;
    if (writer->state != OPEN || writer->points + count > UINT32_MAX)
        return wrong(error);
    writer->points += count;
    if (writer->sets != 0)
        count_records(writer, records, count);
    if (writer->chunk == 0)
        answer = put_bytes(writer, records, (size_t)count * writer->says.record_length, error);
    else
        answer = take_records(writer, records, count, error);
    return answer == LAZ_DONE ? done(error) : answer;
}

/* Writes a bound of the box, unless the one that is there is right to half a scale. */
static void set_bound(laz_writer *writer, size_t place, size_t axis, int32_t raw)
{
    double scale, offset, there, bound, far, half;
    memcpy(&scale, writer->head + 131 + 8 * axis, 8);
    memcpy(&offset, writer->head + 155 + 8 * axis, 8);
    memcpy(&there, writer->head + place, 8);
    bound = raw * scale;
    bound += offset;
    far = there < bound ? bound - there : there - bound;
    half = (scale < 0 ? -scale : scale) / 2;
    if (!(far < half))
        memcpy(writer->head + place, &bound, 8);
}

/* Puts what was counted into the head. */
static void set_head(laz_writer *writer)
{
    uint8_t *head = writer->head;
    int is_long = writer->says.minor == 4;
    int is_short = !is_long || number_at(head + 107, 4) != 0 || number_at(head + 247, 8) == 0;
    if (writer->sets & LAZ_SETS_COUNTS) {
        put_number(head + 107, 4, is_short ? writer->points : 0);
        for (size_t i = 0; i < 5; i++)
            put_number(head + 111 + 4 * i, 4, is_short ? writer->returns[i + 1] : 0);
        if (is_long)
            put_number(head + 247, 8, writer->points);
        for (size_t i = 0; i < 15 && is_long; i++)
            put_number(head + 255 + 8 * i, 8, i < 7 ? writer->returns[i + 1] : 0);
    }
    for (size_t axis = 0; axis < 3 && writer->sets & LAZ_SETS_BOX && writer->points > 0; axis++) {
        set_bound(writer, 179 + 16 * axis, axis, writer->greatest[axis]);
        set_bound(writer, 187 + 16 * axis, axis, writer->least[axis]);
    }
}

static uint32_t write_table(laz_writer *writer, struct laz_error *error)
{
    uint64_t room = laz_c_table_room(writer->chunks);
    uint8_t *table = items_of((size_t)room, 1);
    size_t length = 0;
    uint32_t answer = LAZ_NO_MEMORY;
    if (table != NULL)
        answer = laz_c_table_of(NULL, 0, writer->counts, writer->chunks, table, (size_t)room, &length);
    answer = answer == LAZ_DONE ? put_bytes(writer, table, length, error) : fail(writer, error, answer, 0);
    free(table);
    return answer;
}

uint32_t laz_writer_finish(laz_writer *writer, struct laz_error *error)
{
    uint32_t answer = LAZ_DONE;
    uint64_t table;
    int said;
    if (writer->state != OPEN || (!(writer->sets & LAZ_SETS_COUNTS) && writer->points != writer->says.points))
        return wrong(error);
    if (writer->filled > 0)
        answer = pack_records(writer, writer->waiting, writer->filled, error);
    table = writer->at;
    if (answer == LAZ_DONE && writer->chunk > 0)
        answer = write_table(writer, error);
    if (answer == LAZ_DONE) {
        set_head(writer);
        answer = write_front(writer, table, error);
    }
    if (answer != LAZ_DONE)
        return answer;
    writer->state = FINISHED;
    writer->ended = 1;
    said = writer->io.end == NULL ? 0 : writer->io.end(writer->io.context, 1);
    return said == 0 ? done(error) : fail(writer, error, LAZ_WRITE_FAILED, said);
}

void laz_writer_close(laz_writer *writer)
{
    if (writer == NULL)
        return;
    if (!writer->ended && writer->io.end != NULL)
        writer->io.end(writer->io.context, 0);
    free(writer->head);
    free(writer->waiting);
    free(writer->packed);
    free(writer->written);
    free(writer->answers);
    free(writer->counts);
    free(writer);
}
