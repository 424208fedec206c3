/*
 * Calls the exported spool calls as any C program would. tests/c_spool.py gives it calls on standard input
 * and compares what it prints.
 *
 * A call is a struct asked, and then the bytes that are lent to be read; of those that are over 1 MiB the
 * input has the first block, and the rest is zeros.
 *
 *     call    lengths                    bytes             printed
 *     R       spool, room                spool             answer of mastfrap_spool_read, *len, room
 *     L       spool; and the place       spool             answer of mastfrap_spool_look
 *     W       program, room              program           answer of mastfrap_spool_write, *len, room
 *     S       spool, spares, report      spool, spares     answer of mastfrap_spool_salvage, spool, report
 *
 * Room, report and *len hold 0xaa before, or zeros if they are over 1 MiB. What a call may write has guard
 * bytes beside it, and is printed with them: in hex, or, if it is long, as its CRC-32. What it may only read
 * cannot be written meanwhile. Behind the guard bytes, of which there may be none, no byte can be touched;
 * their number puts what is lent at even and at odd addresses. Memory over 1 MiB has no guard bytes, and of
 * it the front is printed.
 */
#include <stdio.h>
#include <stdlib.h>
#include <string.h>
#include <sys/mman.h>

#include "mastfrap.h"

#define MOST (1u << 20)
#define AREA (2 * MOST)
#define BEFORE 16 /* guard bytes */
#define HEX_MOST 128

struct asked {
    uint8_t call;
    uint8_t behind; /* guard bytes there */
    uint8_t unused[6];
    uint64_t lengths[3];
};

struct lent {
    uint8_t *area; /* made at its first use: AREA bytes, and as many more that cannot be touched */
    uint8_t *bytes;
    uint64_t n;
    size_t behind;
};

static size_t take(void *to, size_t n)
{
    size_t got = fread(to, 1, n, stdin);
    if (got != n && (got != 0 || !feof(stdin))) {
        fprintf(stderr, "c_spool: the input ends inside a call\n");
        exit(2);
    }
    return got;
}

/* Zero pages that nobody touches cost no memory, so more than 4 GiB of them are at hand. */
static uint8_t *pages(size_t n)
{
    void *p = mmap(NULL, n, PROT_READ | PROT_WRITE, MAP_PRIVATE | MAP_ANONYMOUS | MAP_NORESERVE, -1, 0);
    if (p == MAP_FAILED) {
        perror("c_spool: mmap");
        exit(2);
    }
    return p;
}

static void protect(uint8_t *p, size_t n, int how)
{
    if (mprotect(p, n, how) != 0) {
        perror("c_spool: mprotect");
        exit(2);
    }
}

/* Lends n bytes, taken from the input if they are given, which can be used in this way. */
static uint8_t *lend(struct lent *l, uint64_t n, size_t behind, int given, int how)
{
    l->n = n;
    l->behind = behind;
    if (n > MOST) {
        l->bytes = pages(n);
        if (given && take(l->bytes, MASTFRAP_SPOOL_BLOCK_BYTES) == 0)
            exit(2);
        protect(l->bytes, n, how);
        return l->bytes;
    }
    if (l->area == NULL) {
        l->area = pages(2 * AREA);
        protect(l->area + AREA, AREA, PROT_NONE);
    }
    l->bytes = l->area + AREA - behind - n;
    protect(l->area, AREA, PROT_READ | PROT_WRITE);
    memset(l->bytes - BEFORE, 0xaa, BEFORE + n + behind);
    if (given && n != 0 && take(l->bytes, n) == 0)
        exit(2);
    protect(l->area, AREA, how);
    return l->bytes;
}

static const uint8_t *to_read(struct lent *l, uint64_t n, size_t behind)
{
    return lend(l, n, behind, 1, PROT_READ);
}

static uint8_t *to_write(struct lent *l, uint64_t n, size_t behind, int given)
{
    return lend(l, n, behind, given, PROT_READ | PROT_WRITE);
}

static void give_back(struct lent *l)
{
    if (l->n > MOST)
        munmap(l->bytes, l->n);
    l->n = 0;
}

static uint32_t crc32(const uint8_t *p, size_t n)
{
    static uint32_t table[256];
    uint32_t crc = 0xffffffff;

    if (table[1] == 0)
        for (uint32_t i = 0; i < 256; i++) {
            table[i] = i;
            for (int k = 0; k < 8; k++)
                table[i] = table[i] >> 1 ^ (table[i] & 1 ? 0xedb88320 : 0);
        }
    for (size_t i = 0; i < n; i++)
        crc = crc >> 8 ^ table[(crc ^ p[i]) & 255];
    return ~crc;
}

static void print_bytes(const uint8_t *p, size_t n)
{
    printf(" ");
    if (n > HEX_MOST)
        printf("%08x", (unsigned)crc32(p, n));
    else
        for (size_t i = 0; i < n; i++)
            printf("%02x", p[i]);
}

static void print(const struct lent *l)
{
    if (l->n > MOST)
        print_bytes(l->bytes, MOST);
    else
        print_bytes(l->bytes - BEFORE, BEFORE + l->n + l->behind);
}

/* The count that reading and writing give. */
static struct {
    uint8_t before[8];
    mastfrap_size len;
    uint8_t after[8];
} count;

int main(void)
{
    static struct lent first, second, third;
    struct asked a;

    setvbuf(stdout, NULL, _IOLBF, BUFSIZ); /* so that the lines before a fault are there */
    while (take(&a, sizeof a) != 0) {
        uint64_t *n = a.lengths;

        memset(&count, 0xaa, sizeof count);
        if (a.call == 'R' || a.call == 'W') {
            const uint8_t *bytes = to_read(&first, n[0], a.behind);
            uint8_t *room = to_write(&second, n[1], a.behind, 0);
            printf("%u", (unsigned)(a.call == 'R' ? mastfrap_spool_read(bytes, n[0], room, n[1], &count.len)
                                                  : mastfrap_spool_write(bytes, n[0], room, n[1], &count.len)));
            print_bytes((const uint8_t *)&count, sizeof count);
            print(&second);
        } else if (a.call == 'L') {
            const uint8_t *spool = to_read(&first, n[0], a.behind);
            printf("%u", (unsigned)mastfrap_spool_look(spool, n[0], n[1]));
        } else if (a.call == 'S') {
            uint8_t *spool = to_write(&first, n[0], a.behind, 1);
            const uint8_t *spares = to_read(&second, n[1], a.behind);
            uint8_t *report = to_write(&third, n[2], a.behind, 0);
            printf("%u", (unsigned)mastfrap_spool_salvage(spool, n[0], spares, n[1], report, n[2]));
            print(&first);
            print(&third);
        } else {
            return 2;
        }
        printf("\n");
        give_back(&first);
        give_back(&second);
        give_back(&third);
    }
    return 0;
}
