/*
 * Time of the spool calls over that of the same in C (bench/blocks.c), in this one run: a program of 131,072 bytes written, its spool
 * read, and that spool salvaged with every tenth block damaged and the good spool as spares. Each figure is the best of several rounds,
 * in which the two take turns. Before that, both must give the same answers and bytes.
 */
#include <stdio.h>
#include <stdlib.h>
#include <string.h>
#include <time.h>

#include "mastfrap.h"

typedef uint32_t copying(const uint8_t *, mastfrap_size, uint8_t *, mastfrap_size, mastfrap_size *);
typedef uint32_t mending(uint8_t *, mastfrap_size, const uint8_t *, mastfrap_size, uint8_t *, mastfrap_size);
copying plain_spool_read, plain_spool_write;
mending plain_spool_salvage;
void reference_blake2s(const uint8_t *msg, size_t n, uint8_t out[32]);

#define SIZE MASTFRAP_PROGRAM_MOST
#define SPOOL MASTFRAP_SPOOL_MOST
#define BLOCK MASTFRAP_SPOOL_BLOCK_BYTES
#define BLOCKS MASTFRAP_SPOOL_BLOCKS_MOST
#define ROOM (SPOOL + BLOCK)
#define ROUNDS 300
#define STALE 0xaa

/* What a call is lent to write, once for each of the two, and its answer. */
static struct lent {
    uint8_t room[ROOM], report[BLOCKS + 1];
    mastfrap_size len;
    uint32_t answer;
} lent[2];

/* Program and good spool have bytes behind them, for the calls that are told too long a length. */
static uint8_t program[SIZE + 1], good[ROOM], damaged[SPOOL];

static double now(void)
{
    struct timespec t;
    clock_gettime(CLOCK_MONOTONIC, &t);
    return t.tv_sec + 1e-9 * t.tv_nsec;
}

/* ---- the calls */

static void write_to(int p, const uint8_t *x, size_t n, size_t room)
{
    lent[p].answer = (p ? plain_spool_write : mastfrap_spool_write)(x, n, lent[p].room, room, &lent[p].len);
}

static void read_from(int p, const uint8_t *spool, size_t n, size_t room)
{
    lent[p].answer = (p ? plain_spool_read : mastfrap_spool_read)(spool, n, lent[p].room, room, &lent[p].len);
}

/* The spool is in the room. */
static void salvage_with(int p, size_t n, const uint8_t *spares, size_t spares_len, size_t report)
{
    lent[p].answer = (p ? plain_spool_salvage : mastfrap_spool_salvage)(lent[p].room, n, spares, spares_len, lent[p].report, report);
}

static void write_all(int p)
{
    write_to(p, program, SIZE, SPOOL);
}

static void read_all(int p)
{
    read_from(p, good, SPOOL, ROOM);
}

static void salvage_all(int p)
{
    salvage_with(p, SPOOL, good, SPOOL, BLOCKS);
}

/* ---- the same bytes and numbers */

/* Fresh rooms, with a spool at the front. */
static void lend(const uint8_t *spool, size_t n)
{
    for (int p = 0; p < 2; p++) {
        memset(&lent[p], STALE, sizeof lent[p]);
        memcpy(lent[p].room, spool, n);
    }
}

/* Both have left the same, and gave the answer that is expected. */
static void same(const char *what, uint32_t answer)
{
    if (memcmp(&lent[0], &lent[1], sizeof lent[0]) != 0 || lent[0].answer != answer) {
        fprintf(stderr, "spool: %s: proved %u, C %u, expected %u, or bytes differ\n", what, lent[0].answer, lent[1].answer, answer);
        exit(1);
    }
}

static void both_write(const char *what, size_t n, size_t room, uint32_t answer)
{
    lend(program, 0);
    for (int p = 0; p < 2; p++)
        write_to(p, program, n, room);
    same(what, answer);
}

static void both_read(const char *what, const uint8_t *spool, size_t n, size_t room, uint32_t answer)
{
    lend(spool, 0);
    for (int p = 0; p < 2; p++)
        read_from(p, spool, n, room);
    same(what, answer);
}

/* Kept, replaced and lost are how many blocks of each the report is to have. */
static void both_salvage(const char *what, const uint8_t *spool, size_t n, const uint8_t *spares, size_t spares_len, size_t report,
                         uint32_t answer, int kept, int replaced, int lost)
{
    int entries[256] = {0};
    lend(spool, n);
    for (int p = 0; p < 2; p++)
        salvage_with(p, n, spares, spares_len, report);
    same(what, answer);
    for (size_t i = 0; i < n / BLOCK; i++)
        entries[lent[0].report[i]]++;
    if (answer == 0 && (entries[0] != kept || entries[1] != replaced || entries[2] != lost)) {
        fprintf(stderr, "spool: %s: %d kept, %d replaced, %d lost\n", what, entries[0], entries[1], entries[2]);
        exit(1);
    }
}

/* The good spool with a byte of a block changed, and the check made anew if it is to be right. */
static const uint8_t *with(size_t block, size_t at, uint8_t byte, int sealed)
{
    static uint8_t spool[SPOOL];
    uint8_t *b = spool + BLOCK * block;
    memcpy(spool, good, SPOOL);
    b[at] = byte;
    if (sealed)
        reference_blake2s(b, BLOCK - 32, b + BLOCK - 32);
    return spool;
}

static void compare(void)
{
    static uint8_t reversed[SPOOL], empty[BLOCK], two[2 * BLOCK];

    both_write("writing", SIZE, SPOOL, 0);
    if (lent[0].len != SPOOL)
        abort();
    memcpy(good, lent[0].room, SPOOL);
    memcpy(damaged, good, SPOOL);
    for (int k = 9; k < BLOCKS; k += 10)
        damaged[BLOCK * k + 100] ^= 1;
    for (int k = 0; k < BLOCKS; k++)
        memcpy(reversed + BLOCK * k, good + BLOCK * (BLOCKS - 1 - k), BLOCK);
    memcpy(two, with(9, 8, good[9 * BLOCK + 8] ^ 1, 1) + 9 * BLOCK, BLOCK);
    memcpy(two + BLOCK, good + 9 * BLOCK, BLOCK);
    reference_blake2s(empty, BLOCK - 32, empty + BLOCK - 32);
    both_read("reading", good, SPOOL, ROOM, 0);
    if (lent[0].len != SIZE || memcmp(lent[0].room, program, SIZE) != 0)
        abort();
    both_salvage("salvage", damaged, SPOOL, good, SPOOL, BLOCKS, 0, BLOCKS - 27, 27, 0);
    if (memcmp(lent[0].room, good, SPOOL) != 0)
        abort();

    both_write("writing one byte", 1, BLOCK, 0);
    both_write("writing a full block", 472, ROOM, 0);
    both_write("writing a block and a byte", 473, ROOM, 0);
    both_write("writing nothing", 0, ROOM, 40);
    both_write("writing too much", SIZE + 1, ROOM, 40);
    both_write("writing with too little room", SIZE, SPOOL - 1, 54);

    both_read("reading one block", good, BLOCK, ROOM, 0);
    both_read("reading nothing", good, 0, ROOM, 50);
    both_read("reading too much", good, ROOM, ROOM, 50);
    both_read("reading an odd length", good, SPOOL - 1, ROOM, 50);
    both_read("reading with too little room", good, SPOOL, 472 * BLOCKS - 1, 54);
    both_read("reading every tenth damaged", damaged, SPOOL, ROOM, 51);
    both_read("a bad check", with(277, 511, good[SPOOL - 1] ^ 0x80, 0), SPOOL, ROOM, 51);
    both_read("a bad number", with(100, 0, 101, 1), SPOOL, ROOM, 52);
    both_read("a high number", with(100, 3, 1, 1), SPOOL, ROOM, 52);
    both_read("a short block", with(5, 4, 471 & 255, 1), SPOOL, ROOM, 53);
    both_read("a last block too long", with(277, 4, 329 & 255, 1), SPOOL, ROOM, 53);
    both_read("a last block with more than it says", with(277, 5, 0, 1), SPOOL, ROOM, 53);
    both_read("an empty block", empty, BLOCK, ROOM, 53);
    both_read("a filler", with(277, 479, 1, 1), SPOOL, ROOM, 53);

    both_salvage("salvage of a good spool", good, SPOOL, good, 0, BLOCKS + 1, 0, BLOCKS, 0, 0);
    both_salvage("salvage without spares", damaged, SPOOL, good, 0, BLOCKS, 0, BLOCKS - 27, 0, 27);
    both_salvage("salvage with spares that run backwards", damaged, SPOOL, reversed, SPOOL, BLOCKS, 0, BLOCKS - 27, 27, 0);
    both_salvage("salvage with some spares", damaged, SPOOL, good, SPOOL / 2, BLOCKS, 0, BLOCKS - 27, 13, 14);
    both_salvage("salvage with two spares for a place", damaged, SPOOL, two, 2 * BLOCK, BLOCKS, 0, BLOCKS - 27, 1, 26);
    both_salvage("salvage with bad spares", damaged, SPOOL, damaged, SPOOL, BLOCKS, 0, BLOCKS - 27, 0, 27);
    both_salvage("salvage of a filler", with(277, 479, 1, 1), SPOOL, good, SPOOL, BLOCKS, 0, BLOCKS - 1, 1, 0);
    both_salvage("salvage of too much", good, ROOM, good, SPOOL, BLOCKS, 50, 0, 0, 0);
    both_salvage("salvage of an odd length", damaged, SPOOL - 1, good, SPOOL, BLOCKS, 50, 0, 0, 0);
    both_salvage("salvage with half a spare", damaged, SPOOL, good, BLOCK / 2, BLOCKS, 50, 0, 0, 0);
    both_salvage("salvage with a short report", damaged, SPOOL, good, SPOOL, BLOCKS - 1, 54, 0, 0, 0);
}

/* ---- the times */

static void measure(const char *what, void (*all)(int), const uint8_t *spool, size_t n)
{
    double best[2] = {1e9, 1e9};
    for (int r = 0; r < ROUNDS; r++) {
        lend(spool, n);
        for (int p = 0; p < 2; p++) {
            double t = now();
            all(p);
            t = now() - t;
            if (t < best[p])
                best[p] = t;
        }
        same(what, 0);
    }
    printf("%-24s %12.1f %12.1f %22.2f\n", what, best[0] * 1e6, best[1] * 1e6, best[0] / best[1]);
}

int main(void)
{
    for (int i = 0; i < SIZE; i++)
        program[i] = (uint8_t)(i * 7 + (i >> 8));
    program[472 * 6 - 1] = 0; /* so that block 5 can say one byte less, and nothing but its count is bad */
    compare();
    printf("%-24s %12s %12s %22s\n", "call", "us, proved", "us, C", "time / C at gcc -O3");
    measure("write", write_all, program, 0);
    measure("read", read_all, good, 0);
    measure("salvage", salvage_all, damaged, SPOOL);
    return 0;
}
