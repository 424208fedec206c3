/*
 * The peer of bench/pair.sh: the head of bench/head.c receives what crates/bench_load sends to the proved head, and the same lines
 * are printed.
 */
#include <stdio.h>
#include <string.h>

#include "mastfrap.h"

#define RAM_LEN 131072

static uint8_t frames[(1 + 1033) * 129], ram[RAM_LEN];
static uint32_t numbers[MASTFRAP_STATE_NUMBERS], start[2], reply_len;
static uint8_t bytes[MASTFRAP_STATE_BYTES], room[129], cdi[32], digest[32];

static uint32_t number(const uint8_t *p)
{
    return p[0] | p[1] << 8 | p[2] << 16 | (uint32_t)p[3] << 24;
}

static void fill(uint32_t size)
{
    for (size_t i = 0; i < sizeof frames; i++) {
        size_t p = (i / 129 - 1) * 127 + i % 129 - 2;
        if (i < 129)
            frames[i] = 0x5a;
        else
            frames[i] = i % 129 == 1 ? 0x05 : (uint8_t)(p * 7 + p / 256);
        if (i % 129 == 0)
            frames[i] = 0x13;
    }
    frames[1] = 0x03;
    for (int i = 0; i < 4; i++)
        frames[2 + i] = size >> 8 * i;
    frames[6] = 1;
}

static void load(size_t n)
{
    static const uint8_t record[256] = {4}, none[32];
    uint32_t uds[8];
    uint8_t udi[8];

    memset(udi, 0xd0, 8);
    for (int i = 0; i < 8; i++)
        uds[i] = 0x13121110;
    mastfrap_begin(numbers, bytes, record, 256, udi, none, 0, 0, none, 0, 0, none, ram, RAM_LEN, uds, 8, start, cdi, digest);
    for (size_t i = 0; i < n; i++)
        if (mastfrap_gather(numbers, bytes, frames[i]) == MASTFRAP_WHOLE)
            mastfrap_act(numbers, bytes, room, sizeof room, ram, RAM_LEN, uds, 8, &reply_len, start, cdi, digest);
}

int main(void)
{
    uint8_t input[8] = {0};
    uint64_t received = 0;

    if (fread(input, 1, 8, stdin) != 8)
        return 1;
    uint32_t size = number(input), times = number(input + 4);
    size_t n = size > RAM_LEN ? sizeof frames : 129 * (1 + (size_t)(size / 127 + (size % 127 != 0)));
    fill(size);
    for (; times > 0; times--) {
        load(n);
        received += n;
    }
    printf("size %u\nreceived %llu\ncdi ", size, (unsigned long long)received);
    for (int i = 0; i < 32; i++)
        printf("%02x", cdi[i]);
    printf("\n");
    return 0;
}
