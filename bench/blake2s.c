/*
 * Time of the proved BLAKE2s over that of its peers, all in this one run, for unkeyed 32-byte hashes.
 * Each figure is the best of several turns, in each of which all are measured one after the other.
 */
#include <openssl/evp.h>
#include <stdio.h>
#include <stdlib.h>
#include <string.h>
#include <time.h>
#ifdef LIBB2
#include <blake2.h>
#endif

#include "mastfrap.h"

#define TURNS 15

/* The most that the proved code may take of the time of plain C, and the size at which it counts. */
#define LIMIT 0.85
#define LIMIT_SIZE (128 << 10)

void reference_blake2s(const uint8_t *msg, size_t n, uint8_t out[32]);

static void proved(const uint8_t *msg, size_t n, uint8_t out[32])
{
    if (mastfrap_blake2s(msg, 0, msg, n, out, 32) != 0)
        abort();
}

static void openssl(const uint8_t *msg, size_t n, uint8_t out[32])
{
    static EVP_MD *md;
    if (md == NULL)
        md = EVP_MD_fetch(NULL, "BLAKE2S-256", NULL);
    if (md == NULL || EVP_Digest(msg, n, out, NULL, md, NULL) != 1)
        abort();
}

#ifdef LIBB2
static void libb2(const uint8_t *msg, size_t n, uint8_t out[32])
{
    if (blake2s(out, msg, NULL, 32, n, 0) != 0)
        abort();
}
#endif

/* The proved code first, then plain C: main relies on that. */
static const struct {
    const char *name;
    void (*hash)(const uint8_t *, size_t, uint8_t *);
} peers[] = {
    {"proved", proved},
    {"C at gcc -O3", reference_blake2s},
    {"OpenSSL", openssl},
#ifdef LIBB2
    {"libb2", libb2},
#endif
};

#define PEERS ((int)(sizeof peers / sizeof peers[0]))

static double now(void)
{
    struct timespec t;
    clock_gettime(CLOCK_MONOTONIC, &t);
    return t.tv_sec + 1e-9 * t.tv_nsec;
}

/* The best time of each peer for that many calls on n bytes; exits where a hash differs from the proved one. */
static void measure(const uint8_t *msg, size_t n, size_t calls, double best[])
{
    uint8_t out[PEERS][32];

    for (int p = 0; p < PEERS; p++)
        best[p] = 1e9;
    for (int r = 0; r < TURNS; r++)
        for (int p = 0; p < PEERS; p++) {
            double t = now();
            for (size_t q = 0; q < calls; q++)
                peers[p].hash(msg, n, out[p]);
            t = now() - t;
            if (t < best[p])
                best[p] = t;
        }
    for (int p = 1; p < PEERS; p++)
        if (memcmp(out[0], out[p], 32) != 0) {
            fprintf(stderr, "blake2s: %s and the proved code give different hashes of %zu bytes\n", peers[p].name, n);
            exit(1);
        }
}

int main(void)
{
    static const size_t sizes[] = {64, 1 << 10, LIMIT_SIZE, 64 << 20};
    uint8_t *msg = malloc(sizes[3]);
    double ratio = 0;

    if (msg == NULL)
        abort();
    for (size_t i = 0; i < sizes[3]; i++)
        msg[i] = (uint8_t)(i * 7 + (i >> 8));
    printf("%10s %12s", "bytes", "proved MB/s");
    for (int p = 1; p < PEERS; p++)
        printf("   time / %s", peers[p].name);
    printf("\n");
    for (int k = 0; k < 4; k++) {
        size_t n = sizes[k], calls = n >= (16 << 20) ? 1 : (16 << 20) / n;
        double best[PEERS];
        measure(msg, n, calls, best);
        printf("%10zu %12.1f", n, (double)n * calls / best[0] / 1e6);
        for (int p = 1; p < PEERS; p++)
            printf("%*.2f", (int)strlen(peers[p].name) + 10, best[0] / best[p]);
        printf("\n");
        if (n == LIMIT_SIZE)
            ratio = best[0] / best[1];
    }
    if (ratio > LIMIT) {
        fprintf(stderr, "blake2s: %.2f of the time of plain C at %d bytes is over %.2f: docs/PROVING.md, \"Why the hash is fast\"\n",
                ratio, LIMIT_SIZE, LIMIT);
        return 1;
    }
    return 0;
}
