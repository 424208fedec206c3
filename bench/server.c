/* The client's make_frame and read_reply as a C programmer would write them, for bench/client.c: the same tests and the same bytes. */
#include <string.h>

#include "mastfrap.h"

static uint32_t check(size_t len, uint8_t id, uint32_t k)
{
    if (len == 0 || len > MASTFRAP_PROGRAM_MOST)
        return 40;
    if (id > 3)
        return 41;
    return k > (len + 126) / 127 ? 42 : 0;
}

uint32_t plain_make_frame(const uint8_t *program, size_t len, uint8_t id, uint8_t used, const uint8_t *uss,
                          uint32_t k, uint8_t *room, size_t room_len)
{
    if (room_len < MASTFRAP_FRAME_BYTES)
        return 3;
    uint32_t no = check(len, id, k);
    if (no != 0)
        return no;
    room[0] = (uint8_t)(id << 5 | 2 << 3 | 3);
    if (k != 0) {
        size_t from = 127 * (size_t)(k - 1), left = len - from, n = left < 127 ? left : 127;
        room[1] = 0x05;
        memcpy(room + 2, program + from, n);
        memset(room + 2 + n, 0, 127 - n);
        return 0;
    }
    memset(room + 1, 0, 128);
    room[1] = 0x03;
    for (int i = 0; i < 4; i++)
        room[2 + i] = (uint8_t)(len >> 8 * i);
    if (used) {
        room[6] = 1;
        memcpy(room + 7, uss, 32);
    }
    return 0;
}

uint32_t plain_read_reply(size_t len, uint8_t id, uint32_t k, const uint8_t *reply, size_t reply_len,
                          uint8_t *status, uint8_t *digest)
{
    uint32_t no = check(len, id, k);
    if (no != 0)
        return no;
    int last = k != 0 && k == (len + 126) / 127;
    size_t body = last ? 128 : 4, filler = last ? 35 : 3;
    if (reply_len != body + 1 || reply[2] > 1 || reply[0] != (id << 5 | 2 << 3 | reply[2] << 2 | (last ? 3 : 1)))
        return 43;
    if (reply[1] != (k == 0 ? 4 : last ? 7 : 6))
        return 43;
    for (size_t i = filler; i < reply_len; i++)
        if (reply[i] != 0)
            return 43;
    *status = reply[2];
    if (last)
        memcpy(digest, reply + 3, 32);
    else
        memset(digest, 0, 32);
    return 0;
}
