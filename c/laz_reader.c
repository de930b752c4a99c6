/* Readers of whole files, over calls of the caller's. Nothing of the system is used but malloc and free. */
#include "laz_file.h"

#define STEP 1024
/* The answer of a job that did not run. */
#define LEFT_OUT UINT32_MAX

/* The sums of the first numbers of a list, in little memory: one in each 1,024 is kept. */
struct sums {
    uint32_t *numbers;
    uint64_t *marks;
    uint32_t count;
};

struct laz_reader {
    struct laz_io io;
    struct laz_pool pool;
    struct laz_head head;
    uint8_t *plain_head;
    size_t plain_length;
    uint32_t chunks;
    struct sums bytes;  /* of chunks, in bytes */
    struct sums points; /* of chunks, in points, if each has a number of its own */
    uint32_t next;
};

static int make_sums(struct sums *sums, uint32_t *numbers, uint32_t count)
{
    uint64_t sum = 0;
    sums->numbers = numbers;
    sums->count = count;
    sums->marks = items_of((size_t)count / STEP + 1, sizeof *sums->marks);
    if (sums->marks == NULL)
        return 0;
    for (uint32_t i = 0; i < count; i++) {
        if (i % STEP == 0)
            sums->marks[i / STEP] = sum;
        sum += numbers[i];
    }
    if (count % STEP == 0)
        sums->marks[count / STEP] = sum;
    return 1;
}

/* The sum of the first `place` numbers. */
static uint64_t sum_of(const struct sums *sums, uint32_t place)
{
    uint64_t sum = sums->marks[place / STEP];
    for (uint32_t i = place / STEP * STEP; i < place; i++)
        sum += sums->numbers[i];
    return sum;
}

/* The place of the number in which a value below the sum of all falls. */
static uint32_t place_in(const struct sums *sums, uint64_t value)
{
    uint32_t low = 0, high = sums->count / STEP, place;
    while (low < high) {
        uint32_t middle = high - (high - low) / 2;
        if (sums->marks[middle] <= value)
            low = middle;
        else
            high = middle - 1;
    }
    value -= sums->marks[low];
    for (place = low * STEP; value >= sums->numbers[place]; place++)
        value -= sums->numbers[place];
    return place;
}

static int is_packed(const laz_reader *reader) { return reader->head.chunk != 0; }

/* The place of the first record of a chunk; of the number of chunks, the number of points. */
static uint64_t first_of(const laz_reader *reader, uint32_t chunk)
{
    uint64_t first;
    if (reader->head.chunk == LAZ_COUNTED)
        return sum_of(&reader->points, chunk);
    first = (uint64_t)chunk * reader->head.chunk;
    return first < reader->head.points ? first : reader->head.points;
}

static uint32_t chunk_of(const laz_reader *reader, uint32_t record)
{
    return reader->head.chunk == LAZ_COUNTED ? place_in(&reader->points, record) : record / reader->head.chunk;
}

static uint32_t refused(struct laz_error *error, uint32_t cause)
{
    return failed(error, LAZ_BAD, cause, cause == LAZ_BAD_CHUNK ? 0 : LAZ_NO_CHUNK, 0);
}

/* Reads some bytes of the file. */
static uint32_t read_at(const laz_reader *reader, uint64_t at, uint8_t *bytes, size_t length, struct laz_error *error)
{
    int said = length == 0 ? 0 : reader->io.read(reader->io.context, at, bytes, length);
    return said == 0 ? LAZ_DONE : failed(error, LAZ_READ_FAILED, 0, LAZ_NO_CHUNK, said);
}

/* Keeps the head of the plain file: without the laszip VLR of a packed one. */
static void make_plain(laz_reader *reader, uint8_t *bytes)
{
    size_t length = reader->head.offset, start = reader->head.laszip_start;
    size_t gone = start == 0 ? 0 : (size_t)VLR_SIZE + reader->head.laszip_length;
    if (gone > 0) {
        memmove(bytes + start, bytes + start + gone, length - start - gone);
        put_number(bytes + 96, 4, length - gone);
        put_number(bytes + 100, 4, reader->head.vlr_count - 1);
        bytes[104] &= 127;
    }
    reader->plain_head = bytes;
    reader->plain_length = length - gone;
}

static uint32_t read_head(laz_reader *reader, struct laz_error *error)
{
    uint8_t front[LAZ_FRONT];
    uint64_t size = reader->io.size;
    size_t most = size < LAZ_FRONT ? (size_t)size : LAZ_FRONT;
    uint32_t offset, cause, answer = read_at(reader, 0, front, most, error);
    uint8_t *bytes;
    if (answer != LAZ_DONE)
        return answer;
    if (laz_c_need(front, most, size, &offset, &cause) != LAZ_DONE)
        return refused(error, cause);
    bytes = items_of(offset, 1);
    if (bytes == NULL)
        return no_memory(error);
    answer = read_at(reader, 0, bytes, offset, error);
    if (answer == LAZ_DONE) {
        answer = laz_c_head(bytes, offset, size, &reader->head);
        if (answer == LAZ_NO_MEMORY)
            answer = no_memory(error);
        else if (answer != LAZ_DONE) /* the bytes may have changed between both calls */
            answer = refused(error, answer == LAZ_BAD ? reader->head.refusal : LAZ_OFFSET);
    }
    if (answer != LAZ_DONE) {
        free(bytes);
        return answer;
    }
    make_plain(reader, bytes);
    return LAZ_DONE;
}

/* The place of the chunk table, and of the end of what may be of it. */
static uint32_t find_table(const laz_reader *reader, uint64_t *table, uint64_t *end, struct laz_error *error)
{
    uint64_t first = (uint64_t)reader->head.offset + 8, size = reader->io.size;
    uint8_t pointer[8];
    uint32_t answer;
    if (size < first)
        return refused(error, LAZ_TABLE_POINTER);
    answer = read_at(reader, reader->head.offset, pointer, 8, error);
    *end = size;
    *table = number_at(pointer, 8);
    if (answer == LAZ_DONE && *table == UINT64_MAX) {
        if (size < first + 8)
            return refused(error, LAZ_TABLE_POINTER);
        *end = size - 8;
        answer = read_at(reader, *end, pointer, 8, error);
        *table = number_at(pointer, 8);
    }
    if (answer != LAZ_DONE)
        return answer;
    return first <= *table && *table <= *end ? LAZ_DONE : refused(error, LAZ_TABLE_POINTER);
}

/* Keeps the lists of the chunks. */
static uint32_t keep_table(laz_reader *reader, uint32_t *sizes, uint32_t *counts, struct laz_error *error)
{
    int good = make_sums(&reader->bytes, counts, reader->chunks);
    if (reader->head.chunk == LAZ_COUNTED)
        good = make_sums(&reader->points, sizes, reader->chunks) && good;
    else
        free(sizes);
    return good ? LAZ_DONE : no_memory(error);
}

static uint32_t read_table(laz_reader *reader, struct laz_error *error)
{
    const struct laz_head *head = &reader->head;
    uint64_t table, end, room;
    uint8_t front[8], *bytes;
    uint32_t cause = 0, *sizes, *counts, answer = find_table(reader, &table, &end, error);
    size_t length = end - table < 8 ? (size_t)(end - table) : 8;
    if (answer != LAZ_DONE || (answer = read_at(reader, table, front, length, error)) != LAZ_DONE)
        return answer;
    room = laz_c_table_room(length == 8 ? (uint32_t)number_at(front + 4, 4) : 0);
    length = end - table < room ? (size_t)(end - table) : (size_t)room;
    bytes = items_of(length, 1);
    if (bytes == NULL)
        return no_memory(error);
    answer = read_at(reader, table, bytes, length, error);
    reader->chunks = answer == LAZ_DONE ? laz_c_chunks(bytes, length, head->chunk, head->points) : 0;
    sizes = items_of(reader->chunks, sizeof *sizes);
    counts = items_of(reader->chunks, sizeof *counts);
    if (answer == LAZ_DONE)
        answer = sizes == NULL || counts == NULL
                     ? LAZ_NO_MEMORY
                     : laz_c_table(bytes, length, head->chunk, head->points, table - head->offset - 8, sizes,
                                   reader->chunks, counts, reader->chunks, &cause);
    free(bytes);
    if (answer == LAZ_DONE)
        return keep_table(reader, sizes, counts, error);
    free(sizes);
    free(counts);
    return answer == LAZ_BAD ? refused(error, cause) : answer == LAZ_NO_MEMORY ? no_memory(error) : answer;
}

uint32_t laz_reader_open(const struct laz_io *io, const struct laz_pool *pool, laz_reader **reader,
                         struct laz_error *error)
{
    laz_reader *made;
    uint32_t answer;
    *reader = NULL;
    if (io == NULL || io->read == NULL || !is_pool(pool))
        return wrong(error);
    made = calloc(1, sizeof *made);
    if (made == NULL) {
        if (io->end != NULL)
            io->end(io->context, 0);
        return no_memory(error);
    }
    made->io = *io;
    if (pool != NULL)
        made->pool = *pool;
    answer = read_head(made, error);
    if (answer == LAZ_DONE && is_packed(made))
        answer = read_table(made, error);
    if (answer != LAZ_DONE) {
        laz_reader_close(made);
        return answer;
    }
    *reader = made;
    return done(error);
}

const struct laz_head *laz_reader_head(const laz_reader *reader) { return &reader->head; }

const uint8_t *laz_reader_plain_head(const laz_reader *reader, size_t *length)
{
    *length = reader->plain_length;
    return reader->plain_head;
}

uint32_t laz_reader_chunks(const laz_reader *reader) { return reader->chunks; }

/* Records of a range that are read, a chunk a job. */
struct range {
    const laz_reader *reader;
    uint32_t start, stop; /* records */
    uint32_t first;       /* the chunk of job 0 */
    uint8_t *records;
    struct answered {
        uint32_t answer;
        int system;
    } * answers;          /* of each job */
    _Atomic int has_failed; /* then jobs that have not begun are left out */
};

/* Unpacks a chunk whose bytes are there to its place among the records of the range. */
static uint32_t unpack_to(const struct range *range, uint32_t chunk, const uint8_t *bytes, size_t length)
{
    const laz_reader *reader = range->reader;
    size_t size = reader->head.record_length;
    uint64_t first = first_of(reader, chunk), last = first_of(reader, chunk + 1);
    uint64_t low = first > range->start ? first : range->start, high = last < range->stop ? last : range->stop;
    uint32_t count = (uint32_t)(last - first), answer;
    uint8_t *target = range->records + (low - range->start) * size, *whole;
    if (first >= range->start && last <= range->stop)
        return laz_c_unpack(reader->head.format, reader->head.extra, bytes, length, count, target, count * size);
    whole = items_of(count, size);
    if (whole == NULL)
        return LAZ_NO_MEMORY;
    answer = laz_c_unpack(reader->head.format, reader->head.extra, bytes, length, count, whole, count * size);
    if (answer == LAZ_DONE)
        memcpy(target, whole + (low - first) * size, (size_t)(high - low) * size);
    free(whole);
    return answer;
}

static void read_chunk(void *argument, size_t number)
{
    struct range *range = argument;
    const laz_reader *reader = range->reader;
    uint32_t chunk = range->first + (uint32_t)number, answer = LAZ_NO_MEMORY;
    uint64_t at = reader->head.offset + 8 + sum_of(&reader->bytes, chunk);
    size_t length = reader->bytes.numbers[chunk];
    uint8_t *bytes;
    int said = 0;
    if (range->has_failed)
        return;
    bytes = items_of(length, 1);
    if (bytes != NULL && length > 0)
        said = reader->io.read(reader->io.context, at, bytes, length);
    if (bytes != NULL)
        answer = said != 0 ? LAZ_READ_FAILED : unpack_to(range, chunk, bytes, length);
    free(bytes);
    range->answers[number].answer = answer;
    range->answers[number].system = said;
    if (answer != LAZ_DONE)
        range->has_failed = 1;
}

/* The number of the first job that is not done; those before it that were left out are run now. */
static size_t first_failed(struct range *range, size_t jobs)
{
    for (size_t i = 0; i < jobs; i++) {
        if (range->answers[i].answer == LEFT_OUT) {
            range->has_failed = 0;
            read_chunk(range, i);
        }
        if (range->answers[i].answer != LAZ_DONE)
            return i;
    }
    return jobs;
}

/* Reads the records of a range by chunks. */
static uint32_t read_packed(const laz_reader *reader, struct range *range, uint32_t *whole, struct laz_error *error)
{
    size_t jobs, worst;
    uint64_t first;
    struct answered answered = {LAZ_DONE, 0};
    range->first = chunk_of(reader, range->start);
    jobs = chunk_of(reader, range->stop - 1) - range->first + 1;
    range->answers = items_of(jobs, sizeof *range->answers);
    if (range->answers == NULL)
        return no_memory(error);
    for (size_t i = 0; i < jobs; i++)
        range->answers[i].answer = LEFT_OUT;
    run_jobs(&reader->pool, read_chunk, range, jobs);
    worst = first_failed(range, jobs);
    if (worst < jobs)
        answered = range->answers[worst];
    free(range->answers);
    if (worst == jobs) {
        *whole = range->stop - range->start;
        return done(error);
    }
    first = first_of(reader, range->first + (uint32_t)worst);
    *whole = first > range->start ? (uint32_t)(first - range->start) : 0;
    if (answered.answer == LAZ_BAD || answered.answer == LAZ_WRONG)
        return failed(error, LAZ_BAD, LAZ_BAD_CHUNK, range->first + (uint32_t)worst, 0);
    return failed(error, answered.answer, 0, LAZ_NO_CHUNK, answered.system);
}

uint32_t laz_reader_records(laz_reader *reader, uint32_t start, uint32_t stop, uint8_t *records, uint32_t *whole,
                            struct laz_error *error)
{
    struct range range = {.reader = reader, .start = start, .stop = stop, .records = records};
    size_t size = reader->head.record_length;
    uint32_t answer;
    *whole = 0;
    if (start > stop || stop > reader->head.points)
        return wrong(error);
    if (start == stop)
        return done(error);
    if (is_packed(reader))
        return read_packed(reader, &range, whole, error);
    answer = read_at(reader, reader->head.offset + (uint64_t)start * size, records, (stop - start) * size, error);
    if (answer != LAZ_DONE)
        return answer;
    *whole = stop - start;
    return done(error);
}

uint32_t laz_reader_next(laz_reader *reader, uint8_t *records, uint32_t most, uint32_t *count, struct laz_error *error)
{
    uint32_t left = reader->head.points - reader->next, start = reader->next, answer;
    answer = laz_reader_records(reader, start, start + (most < left ? most : left), records, count, error);
    reader->next = start + *count;
    return answer;
}

uint32_t laz_reader_seek(laz_reader *reader, uint32_t place)
{
    if (place > reader->head.points)
        return LAZ_WRONG;
    reader->next = place;
    return LAZ_DONE;
}

void laz_reader_close(laz_reader *reader)
{
    if (reader == NULL)
        return;
    if (reader->io.end != NULL)
        reader->io.end(reader->io.context, 0);
    free(reader->plain_head);
    free(reader->bytes.numbers);
    free(reader->bytes.marks);
    free(reader->points.numbers);
    free(reader->points.marks);
    free(reader);
}

const char *laz_cause_text(uint32_t cause)
{
    static const char *const names[] = {
        "unknown", "Short", "Magic", "Version", "HeaderSize", "Offset", "Vlrs", "Format", "RecordLength", "Count",
        "Trailing", "StrayVlr", "NoVlr", "VlrShape", "Compressor", "Items", "ChunkSize", "TooManyChunks",
        "TablePointer", "Table", "ChunkSum", "BadChunk", "RawRange", "TooManyParts", "PointSum", "Extended",
        "PointCounts"};
    return cause < sizeof names / sizeof *names ? names[cause] : names[0];
}

/* A text that is written to a buffer, and counted past its end. */
struct text {
    char *bytes;
    size_t room, length;
};

static void add_text(struct text *text, const char *more)
{
    for (; *more != 0; more++, text->length++)
        if (text->length + 1 < text->room)
            text->bytes[text->length] = *more;
}

static void add_decimal(struct text *text, uint32_t number)
{
    char digits[12];
    size_t at = sizeof digits - 1;
    digits[at] = 0;
    do
        digits[--at] = (char)('0' + number % 10);
    while ((number /= 10) > 0);
    add_text(text, " ");
    add_text(text, digits + at);
}

size_t laz_error_text(const struct laz_error *error, const char *name, char *text, size_t room)
{
    static const char *const answers[] = {"done",           "no memory",  "refused:",
                                          "wrong arguments", "read fault", "write fault"};
    struct text made = {text, room, 0};
    uint32_t answer = error->answer;
    if (name != NULL) {
        add_text(&made, name);
        add_text(&made, ": ");
    }
    add_text(&made, answer <= LAZ_WRITE_FAILED ? answers[answer] : "unknown");
    if (answer == LAZ_BAD) {
        add_decimal(&made, error->cause);
        add_text(&made, " ");
        add_text(&made, laz_cause_text(error->cause));
        if (error->chunk != LAZ_NO_CHUNK)
            add_decimal(&made, error->chunk);
    } else if (error->system > 0)
        add_decimal(&made, (uint32_t)error->system);
    if (room > 0)
        text[made.length < room ? made.length : room - 1] = 0;
    return made.length;
}
