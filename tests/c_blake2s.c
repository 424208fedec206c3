/*
 * Calls the exported hash as any C program would. tests/c_blake2s.py gives it cases on standard input
 * and compares what it prints.
 *
 * A case: key_len, msg_len and out_len, eight bytes each, then the key and, unless msg_len is over
 * 1 MiB, the message; a longer message is zeros. The line printed: the answer, then the output room
 * in hex, which holds 0xaa before the call and has four bytes more than the call is told of.
 */
#include <stdio.h>
#include <stdlib.h>
#include <string.h>
#include <sys/mman.h>

#include "mastfrap.h"

#define SHORT (1u << 20)
#define SPARE 4

static void take(void *to, size_t n)
{
    if (n != 0 && fread(to, 1, n, stdin) != n) {
        fprintf(stderr, "c_blake2s: the input ends inside a case\n");
        exit(2);
    }
}

/* Zero pages that are only read cost no memory, so 4 GiB of them are at hand. */
static uint8_t *zeros(size_t n)
{
    void *p = mmap(NULL, n, PROT_READ, MAP_PRIVATE | MAP_ANONYMOUS | MAP_NORESERVE, -1, 0);
    if (p == MAP_FAILED) {
        perror("c_blake2s: mmap");
        exit(2);
    }
    return p;
}

int main(void)
{
    static uint8_t key[256], small[SHORT], out[256];
    uint64_t len[3];

    while (fread(len, 1, sizeof len, stdin) == sizeof len) {
        size_t kk = len[0], ll = len[1], nn = len[2];
        if (kk > sizeof key || nn + SPARE > sizeof out)
            return 2;
        take(key, kk);
        uint8_t *msg = small;
        if (ll > SHORT)
            msg = zeros(ll);
        else
            take(small, ll);
        memset(out, 0xaa, sizeof out);
        printf("%u ", (unsigned)mastfrap_blake2s(key, kk, msg, ll, out, nn));
        for (size_t i = 0; i < nn + SPARE; i++)
            printf("%02x", out[i]);
        printf("\n");
        if (msg != small)
            munmap(msg, ll);
    }
    return 0;
}
