/*
 * Calls the exported diagnosis as any C program would. tests/c_diagnose.py gives it calls on standard
 * input and compares what it prints.
 *
 * A call is the lengths of record, RAM and bytes and the first length to cut the bytes to, eight bytes each,
 * and then the record and the bytes; of those that are over 1 MiB there are none in the input: they are
 * zeros. For each length that the bytes are cut to, from the first to all, it prints the answer of
 * mastfrap_diagnose, and counts and digest.
 *
 * What a call may write holds 0xaa before, with eight bytes more on each side, and all is printed. What
 * it may only read cannot be written meanwhile, and ends where the next byte cannot be touched.
 */
#include <stdio.h>
#include <stdlib.h>
#include <string.h>
#include <sys/mman.h>

#include "mastfrap.h"

#define SHORT (1u << 20)

static size_t take(void *to, size_t n)
{
    size_t got = fread(to, 1, n, stdin);
    if (got != n && (got != 0 || !feof(stdin))) {
        fprintf(stderr, "c_diagnose: the input ends inside a call\n");
        exit(2);
    }
    return got;
}

static uint8_t *pages(size_t n)
{
    void *p = mmap(NULL, n, PROT_READ, MAP_PRIVATE | MAP_ANONYMOUS | MAP_NORESERVE, -1, 0);
    if (p == MAP_FAILED) {
        perror("c_diagnose: mmap");
        exit(2);
    }
    return p;
}

static void protect(uint8_t *p, size_t n, int how)
{
    if (mprotect(p, n, how) != 0) {
        perror("c_diagnose: mprotect");
        exit(2);
    }
}

/* These bytes at the end of an area of SHORT bytes, made at its first use, which can only be read; or zeros. */
static const uint8_t *lent(uint8_t **area, const uint8_t *bytes, uint64_t n)
{
    if (n > SHORT)
        return pages(n);
    if (*area == NULL) {
        *area = pages(2 * SHORT);
        protect(*area + SHORT, SHORT, PROT_NONE);
    }
    protect(*area, SHORT, PROT_READ | PROT_WRITE);
    memcpy(*area + SHORT - n, bytes, n);
    protect(*area, SHORT, PROT_READ);
    return *area + SHORT - n;
}

static void give_back(const uint8_t *p, uint64_t n)
{
    if (n > SHORT)
        munmap((void *)p, n);
}

/* What the call writes to. */
static struct {
    uint8_t before[8];
    uint64_t counts[MASTFRAP_DIAGNOSIS_COUNTS];
    uint8_t between[8];
    uint8_t digest[MASTFRAP_DIGEST_BYTES];
    uint8_t after[8];
} out;

static void print(uint32_t answer)
{
    static const char digits[] = "0123456789abcdef";
    const uint8_t *p = (const uint8_t *)&out;
    char hex[2 * sizeof out + 1] = {0};

    for (size_t i = 0; i < sizeof out; i++) {
        hex[2 * i] = digits[p[i] >> 4];
        hex[2 * i + 1] = digits[p[i] & 15];
    }
    printf("%u %s\n", (unsigned)answer, hex);
}

int main(void)
{
    static uint8_t record[SHORT], bytes[SHORT], *record_area, *bytes_area;
    uint64_t lengths[4];

    setvbuf(stdout, NULL, _IOLBF, BUFSIZ); /* so that the lines before a fault are there */
    while (take(lengths, sizeof lengths) != 0) {
        uint64_t record_len = lengths[0], ram_len = lengths[1], bytes_len = lengths[2];

        if (record_len <= SHORT)
            take(record, record_len);
        if (bytes_len <= SHORT)
            take(bytes, bytes_len);
        const uint8_t *r = lent(&record_area, record, record_len);
        for (uint64_t n = lengths[3]; n <= bytes_len; n++) {
            const uint8_t *b = lent(&bytes_area, bytes, n);
            memset(&out, 0xaa, sizeof out);
            print(mastfrap_diagnose(r, record_len, ram_len, b, n, out.counts, out.digest));
            give_back(b, n);
        }
        give_back(r, record_len);
    }
    return 0;
}
