/* What the sources of readers and writers share. It is no part of the library's interface. */
#ifndef LAZ_FILE_H
#define LAZ_FILE_H

#include "las.h"
#if __STDC_HOSTED__
#include <stdlib.h>
#include <string.h>
#else
/* What is used of the C library, for systems whose headers are not here: compiled with -ffreestanding. */
void *malloc(size_t size);
void *calloc(size_t count, size_t size);
void *realloc(void *block, size_t size);
void free(void *block);
void *memcpy(void *target, const void *source, size_t size);
void *memmove(void *target, const void *source, size_t size);
#endif

#define LASZIP_USER "laszip encoded"
#define LASZIP_RECORD 22204
#define VLR_SIZE 54
#define MAX_THREADS 256

static inline uint64_t number_at(const uint8_t *bytes, size_t length)
{
    uint64_t number = 0;
    while (length > 0)
        number = number << 8 | bytes[--length];
    return number;
}

static inline void put_number(uint8_t *bytes, size_t length, uint64_t number)
{
    for (size_t i = 0; i < length; i++)
        bytes[i] = (uint8_t)(number >> 8 * i);
}

/* Fills in an error, and answers its answer. */
static inline uint32_t failed(struct laz_error *error, uint32_t answer, uint32_t cause, uint32_t chunk, int system)
{
    if (error != NULL) {
        error->answer = answer;
        error->cause = cause;
        error->chunk = chunk;
        error->system = system;
    }
    return answer;
}

static inline uint32_t done(struct laz_error *error)
{
    return failed(error, LAZ_DONE, 0, LAZ_NO_CHUNK, 0);
}

static inline uint32_t no_memory(struct laz_error *error)
{
    return failed(error, LAZ_NO_MEMORY, 0, LAZ_NO_CHUNK, 0);
}

static inline uint32_t wrong(struct laz_error *error)
{
    return failed(error, LAZ_WRONG, 0, LAZ_NO_CHUNK, 0);
}

static inline int is_pool(const struct laz_pool *pool)
{
    return pool == NULL || (pool->run != NULL && pool->threads >= 1 && pool->threads <= MAX_THREADS);
}

static inline unsigned threads_of(const struct laz_pool *pool)
{
    return pool == NULL ? 1 : pool->threads;
}

/* Runs jobs by a pool, or one after another. */
static inline void run_jobs(const struct laz_pool *pool, void (*job)(void *argument, size_t number), void *argument,
                            size_t count)
{
    if (pool->run != NULL && count > 1)
        pool->run(pool->context, job, argument, count);
    else
        for (size_t i = 0; i < count; i++)
            job(argument, i);
}

/* Memory for `count` items, at least one byte, so that NULL always says that there is none. */
static inline void *items_of(size_t count, size_t size)
{
    return count > SIZE_MAX / size - 1 ? NULL : malloc(count * size + 1);
}

#endif
