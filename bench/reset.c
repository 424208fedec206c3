/*
 * The reset call of include/mastfrap.h as ordinary C, for bench/firmware.sh. With head.c and reference.c it is a library that
 * tests/c_head.py and tests/c_chain.py are given too: a mistake put into it must make them fail.
 */
#include <stddef.h>
#include <stdint.h>
#include <string.h>

#include "mastfrap.h"

void reference_blake2s(const uint8_t *msg, size_t n, uint8_t out[32]);

static void put_number(uint8_t *p, uint32_t n)
{
    for (int i = 0; i < 4; i++)
        p[i] = n >> 8 * i;
}

uint32_t mastfrap_reset(uint8_t *cdi, mastfrap_size cdi_len, const uint8_t *seed, mastfrap_size seed_len, uint32_t next_type,
                        uint32_t mask, const uint8_t first[32], const uint8_t second[32], const uint8_t *next_data,
                        mastfrap_size next_data_len, uint8_t *record, mastfrap_size record_len)
{
    uint32_t data_at = mask & 2 ? 104 : 72;
    uint8_t string[64];

    if (next_type > 5)
        return 44;
    if (record_len != 256)
        return 45;
    if (cdi_len != 32 || seed_len != 32 || next_data_len != 256 - data_at)
        return 46;
    put_number(record, next_type);
    put_number(record + 4, mask);
    memcpy(record + 8, first, 32);
    memset(record + 40, 0, 32);
    if (mask & 1) {
        memcpy(string, cdi, 32);
        memcpy(string + 32, seed, 32);
        reference_blake2s(string, sizeof string, record + 40);
    }
    if (mask & 2)
        memcpy(record + 72, second, 32);
    memcpy(record + data_at, next_data, next_data_len);
    memset(cdi, 0, 32);
    return 0;
}
