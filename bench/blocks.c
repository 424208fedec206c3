/* The spool calls as a C programmer would write them, for bench/spool.c: the same tests and the same bytes. */
#include <string.h>

#include "mastfrap.h"

#define BLOCK MASTFRAP_SPOOL_BLOCK_BYTES
#define CAPACITY MASTFRAP_SPOOL_PROGRAM_BYTES
#define CHECKED (8 + CAPACITY)

void reference_blake2s(const uint8_t *msg, size_t n, uint8_t out[32]);

static uint32_t get32(const uint8_t *p)
{
    return (uint32_t)p[0] | (uint32_t)p[1] << 8 | (uint32_t)p[2] << 16 | (uint32_t)p[3] << 24;
}

static void put32(uint8_t *p, uint32_t x)
{
    for (int i = 0; i < 4; i++)
        p[i] = (uint8_t)(x >> 8 * i);
}

static int bad_length(size_t n)
{
    return n == 0 || n > MASTFRAP_SPOOL_MOST || n % BLOCK != 0;
}

/* The first refusal of a block at a place, 0 where it is good there. */
static uint32_t fault(const uint8_t *b, size_t place, size_t blocks)
{
    uint8_t check[32];
    reference_blake2s(b, CHECKED, check);
    if (memcmp(b + CHECKED, check, 32) != 0)
        return 51;
    if (get32(b) != place)
        return 52;
    uint32_t count = get32(b + 4), most = place == 277 ? 328 : CAPACITY;
    if (place == blocks - 1 ? count == 0 || count > most : count != CAPACITY)
        return 53;
    for (size_t i = 8 + count; i < CHECKED; i++)
        if (b[i] != 0)
            return 53;
    return 0;
}

uint32_t plain_spool_read(const uint8_t *spool, mastfrap_size spool_len, uint8_t *room, mastfrap_size room_len,
                          mastfrap_size *len)
{
    if (bad_length(spool_len))
        return 50;
    size_t blocks = spool_len / BLOCK, at = 0;
    if (room_len < CAPACITY * blocks)
        return 54;
    for (size_t i = 0; i < blocks; i++) {
        uint32_t no = fault(spool + BLOCK * i, i, blocks);
        if (no != 0)
            return no;
    }
    for (size_t i = 0; i < blocks; i++) {
        const uint8_t *b = spool + BLOCK * i;
        size_t count = get32(b + 4);
        memcpy(room + at, b + 8, count);
        at += count;
    }
    *len = at;
    return 0;
}

uint32_t plain_spool_write(const uint8_t *program, mastfrap_size program_len, uint8_t *room, mastfrap_size room_len,
                           mastfrap_size *len)
{
    if (program_len == 0 || program_len > MASTFRAP_PROGRAM_MOST)
        return 40;
    size_t blocks = (program_len + CAPACITY - 1) / CAPACITY;
    if (room_len < BLOCK * blocks)
        return 54;
    for (size_t i = 0; i < blocks; i++) {
        uint8_t *b = room + BLOCK * i;
        size_t left = program_len - CAPACITY * i, n = left < CAPACITY ? left : CAPACITY;
        put32(b, (uint32_t)i);
        put32(b + 4, (uint32_t)n);
        memcpy(b + 8, program + CAPACITY * i, n);
        memset(b + 8 + n, 0, CAPACITY - n);
        reference_blake2s(b, CHECKED, b + CHECKED);
    }
    *len = BLOCK * blocks;
    return 0;
}

/* No refusal names a spare's fault, so the number is tested before the hash is taken: most spares belong elsewhere. */
uint32_t plain_spool_salvage(uint8_t *spool, mastfrap_size spool_len, const uint8_t *spares, mastfrap_size spares_len,
                             uint8_t *report, mastfrap_size report_len)
{
    if (bad_length(spool_len) || spares_len % BLOCK != 0)
        return 50;
    size_t blocks = spool_len / BLOCK;
    if (report_len < blocks)
        return 54;
    for (size_t i = 0; i < blocks; i++) {
        uint8_t *b = spool + BLOCK * i;
        report[i] = MASTFRAP_SPOOL_KEPT;
        if (fault(b, i, blocks) == 0)
            continue;
        report[i] = MASTFRAP_SPOOL_LOST;
        for (size_t at = 0; at < spares_len; at += BLOCK) {
            if (get32(spares + at) != i)
                continue;
            if (fault(spares + at, i, blocks) == 0) {
                memcpy(b, spares + at, BLOCK);
                report[i] = MASTFRAP_SPOOL_REPLACED;
                break;
            }
        }
    }
    return 0;
}
