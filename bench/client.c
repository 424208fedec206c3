/*
 * Time of the client's calls over that of the same in C (bench/server.c), in this one run, for all frames of a program of 131,072
 * bytes and the replies to them. Each figure is the best of several rounds, in which the two take turns.
 */
#include <stdio.h>
#include <stdlib.h>
#include <string.h>
#include <time.h>

#include "mastfrap.h"

uint32_t plain_make_frame(const uint8_t *program, size_t len, uint8_t id, uint8_t used, const uint8_t *uss,
                          uint32_t k, uint8_t *room, size_t room_len);
uint32_t plain_read_reply(size_t len, uint8_t id, uint32_t k, const uint8_t *reply, size_t reply_len,
                          uint8_t *status, uint8_t *digest);

#define SIZE 131072
#define FRAMES (1 + (SIZE + 126) / 127)
#define ROUNDS 200

static uint8_t program[SIZE], uss[32], frames[2][FRAMES][MASTFRAP_FRAME_BYTES];
static uint8_t replies[FRAMES][MASTFRAP_FRAME_BYTES], read[2][FRAMES][33];

static size_t length(int k)
{
    return k == FRAMES - 1 ? 129 : 5;
}

static double now(void)
{
    struct timespec t;
    clock_gettime(CLOCK_MONOTONIC, &t);
    return t.tv_sec + 1e-9 * t.tv_nsec;
}

static void make_all(int p)
{
    for (int k = 0; k < FRAMES; k++)
        if ((p ? plain_make_frame : mastfrap_make_frame)(program, SIZE, 1, 1, uss, k, frames[p][k], MASTFRAP_FRAME_BYTES) != 0)
            abort();
}

static void read_all(int p)
{
    for (int k = 0; k < FRAMES; k++)
        if ((p ? plain_read_reply : mastfrap_read_reply)(SIZE, 1, k, replies[k], length(k), read[p][k], read[p][k] + 1) != 0)
            abort();
}

static void measure(const char *what, void (*all)(int), const void *proved, const void *plain, size_t n)
{
    double best[2] = {1e9, 1e9};
    for (int r = 0; r < ROUNDS; r++)
        for (int p = 0; p < 2; p++) {
            double t = now();
            all(p);
            t = now() - t;
            if (t < best[p])
                best[p] = t;
        }
    if (memcmp(proved, plain, n) != 0) {
        printf("%s: the two differ\n", what);
        exit(1);
    }
    printf("%-12s %16.1f %22.2f\n", what, best[0] / FRAMES * 1e9, best[0] / best[1]);
}

int main(void)
{
    for (int i = 0; i < SIZE; i++)
        program[i] = (uint8_t)(i * 7 + (i >> 8));
    memset(uss, 0x5a, sizeof uss);
    for (int k = 0; k < FRAMES; k++) {
        replies[k][0] = (uint8_t)(1 << 5 | 2 << 3 | (k & 1) << 2 | (k == FRAMES - 1 ? 3 : 1));
        replies[k][1] = k == 0 ? 4 : k == FRAMES - 1 ? 7 : 6;
        replies[k][2] = k & 1;
        memset(replies[k] + 3, k == FRAMES - 1 ? 0xd1 : 0, 32);
    }
    printf("%-12s %16s %22s\n", "call", "ns, proved", "time / C at gcc -O3");
    measure("make_frame", make_all, frames[0], frames[1], sizeof frames[0]);
    measure("read_reply", read_all, read[0], read[1], sizeof read[0]);
    return 0;
}
