/*
 * The head's three calls, each of which answers what the session's record says, in words: begin the first and gather the second;
 * each act has two more, its answer and the length of its reply. At 0 it leaves *reply_len, as a refused call does.
 * tests/firmware.py shows with it what the firmware does at answers that the proved calls never give it.
 */
#include "mastfrap.h"

#pragma GCC diagnostic ignored "-Wunused-parameter"

static const uint8_t *words;

static uint32_t word(uint32_t k)
{
    const uint8_t *p = words + 4 * k;

    return p[0] | p[1] << 8 | p[2] << 16 | (uint32_t)p[3] << 24;
}

uint32_t mastfrap_begin(uint32_t numbers[3], uint8_t bytes[268], const uint8_t *record, mastfrap_size record_len,
                        const uint8_t udi[8], const uint8_t *slot0, mastfrap_size slot0_len, mastfrap_size size0,
                        const uint8_t *slot1, mastfrap_size slot1_len, mastfrap_size size1, const uint8_t built_in[32],
                        uint8_t *ram, mastfrap_size ram_len, uint32_t *uds, mastfrap_size uds_len, uint32_t start[2],
                        uint8_t cdi[32], uint8_t digest[32])
{
    words = record;
    return word(0);
}

uint32_t mastfrap_gather(uint32_t numbers[3], uint8_t bytes[268], uint8_t byte)
{
    return word(1);
}

uint32_t mastfrap_act(uint32_t numbers[3], uint8_t bytes[268], uint8_t *room, mastfrap_size room_len, uint8_t *ram,
                      mastfrap_size ram_len, uint32_t *uds, mastfrap_size uds_len, uint32_t *reply_len, uint32_t start[2],
                      uint8_t cdi[32], uint8_t digest[32])
{
    static uint32_t k = 2;
    uint32_t answer = word(k++), len = word(k++);

    if (len != 0)
        *reply_len = len;
    return answer;
}
