/* Stands for the proved code where the fuzzer itself is tried: records are copied as they are, and a chunk that begins
 * with eight certain bytes is unpacked one byte too far. */
#include "las.h"
#include <string.h>

uint32_t laz_c_need(const uint8_t *front, size_t front_length, uint64_t size, uint32_t *offset, uint32_t *refusal)
{
    (void)front, (void)front_length, (void)size, (void)offset;
    *refusal = LAZ_SHORT;
    return LAZ_BAD;
}

uint32_t laz_c_head(const uint8_t *bytes, size_t length, uint64_t size, struct laz_head *head)
{
    (void)bytes, (void)length, (void)size, (void)head;
    return LAZ_WRONG;
}

uint32_t laz_c_chunks(const uint8_t *bytes, size_t length, uint32_t chunk, uint32_t points)
{
    (void)bytes, (void)length, (void)chunk, (void)points;
    return 0;
}

uint32_t laz_c_table(const uint8_t *bytes, size_t length, uint32_t chunk, uint32_t points, uint64_t total,
                     uint32_t *sizes, size_t sizes_length, uint32_t *counts, size_t counts_length, uint32_t *refusal)
{
    (void)bytes, (void)length, (void)chunk, (void)points, (void)total;
    (void)sizes, (void)sizes_length, (void)counts, (void)counts_length;
    *refusal = LAZ_TABLE;
    return LAZ_BAD;
}

uint64_t laz_c_room(uint8_t format, uint16_t extra, uint32_t points)
{
    static const uint16_t sizes[] = {20, 28, 26, 34};
    return (uint64_t)points * (sizes[format & 3] + extra);
}

uint32_t laz_c_unpack(uint8_t format, uint16_t extra, const uint8_t *bytes, size_t bytes_length, uint32_t count,
                      uint8_t *records, size_t length)
{
    uint64_t first = 0;
    (void)format, (void)extra, (void)count;
    if (bytes_length < 8)
        return LAZ_BAD;
    memcpy(&first, bytes, 8);
    if (first == UINT64_C(0x315a414c656e616c))
        records[length] = 1;
    memset(records, 0, length);
    memcpy(records, bytes, bytes_length < length ? bytes_length : length);
    return LAZ_DONE;
}

uint32_t laz_c_pack(uint8_t format, uint16_t extra, const uint8_t *records, size_t length, uint8_t *chunk, size_t room,
                    size_t *written)
{
    (void)format, (void)extra, (void)room;
    memcpy(chunk, records, length);
    *written = length;
    return LAZ_DONE;
}
