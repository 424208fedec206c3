/*
 * Calls the exported client as any C program would. tests/c_client.py gives it calls on standard
 * input and compares what it prints.
 *
 * P: a length, eight bytes, and a program, which D and M are then lent; one over 1 MiB is zeros, and
 *    not in the input. Prints nothing.
 * D: prints the answer of mastfrap_blake2s, which is in the other archive, and the program's digest.
 * M: frame ID, used, k (four bytes), the room's length (eight) and 32 bytes of secret.
 *    Prints the answer of mastfrap_make_frame, and the room.
 * R: program length (eight bytes), frame ID, k (four), the reply's length (eight) and the reply.
 *    Prints the answers of mastfrap_difference and mastfrap_read_reply, and status and digest.
 *
 * What a call may write holds 0xaa before, with four bytes more on each side, and all is printed. What
 * it may only read cannot be written meanwhile, and ends where the next byte cannot be touched.
 */
#include <stdio.h>
#include <stdlib.h>
#include <string.h>
#include <sys/mman.h>

#include "mastfrap.h"

#define SHORT (1u << 20)
#define SPARE 4
#define ROOM_MOST 1024

static void take(void *to, size_t n)
{
    if (n != 0 && fread(to, 1, n, stdin) != n) {
        fprintf(stderr, "c_client: the input ends inside a call\n");
        exit(2);
    }
}

static uint8_t *pages(size_t n)
{
    void *p = mmap(NULL, n, PROT_READ, MAP_PRIVATE | MAP_ANONYMOUS | MAP_NORESERVE, -1, 0);
    if (p == MAP_FAILED) {
        perror("c_client: mmap");
        exit(2);
    }
    return p;
}

static void protect(uint8_t *p, size_t n, int how)
{
    if (mprotect(p, n, how) != 0) {
        perror("c_client: mprotect");
        exit(2);
    }
}

/* Takes n bytes from the input to the end of an area of SHORT bytes, made at its first use. */
static const uint8_t *lent(uint8_t **area, size_t n)
{
    if (n > SHORT)
        exit(2);
    if (*area == NULL) {
        *area = pages(2 * SHORT);
        protect(*area + SHORT, SHORT, PROT_NONE);
    }
    protect(*area, SHORT, PROT_READ | PROT_WRITE);
    take(*area + SHORT - n, n);
    protect(*area, SHORT, PROT_READ);
    return *area + SHORT - n;
}

/* What calls write to. */
static uint8_t out[SPARE + ROOM_MOST + SPARE];

/* The answer, and the n bytes that were lent, with what is beside them. */
static void print(uint32_t answer, size_t n)
{
    printf("%u ", (unsigned)answer);
    for (size_t i = 0; i < SPARE + n + SPARE; i++)
        printf("%02x", out[i]);
    printf("\n");
}

static const uint8_t *program;
static uint64_t program_len;

/* Zero pages that are only read cost no memory, so a program over 4 GiB is at hand. */
static void lend_program(void)
{
    static uint8_t *area, *zeros;

    if (program_len > SHORT)
        munmap(zeros, program_len);
    take(&program_len, sizeof program_len);
    if (program_len > SHORT)
        program = zeros = pages(program_len);
    else
        program = lent(&area, program_len);
}

static void hash_program(void)
{
    uint8_t *digest = out + SPARE;
    uint32_t answer = mastfrap_blake2s(program, 0, program, program_len, digest, MASTFRAP_DIGEST_BYTES);
    print(answer, MASTFRAP_DIGEST_BYTES);
}

static void make_frame(void)
{
    static uint8_t *area;
    uint8_t id, used, *room = out + SPARE;
    uint32_t k;
    uint64_t room_len;

    take(&id, sizeof id);
    take(&used, sizeof used);
    take(&k, sizeof k);
    take(&room_len, sizeof room_len);
    const uint8_t *uss = lent(&area, MASTFRAP_USS_BYTES);
    if (room_len > ROOM_MOST)
        exit(2);
    uint32_t answer = mastfrap_make_frame(program, program_len, id, used, uss, k, room, room_len);
    print(answer, room_len);
}

static void read_reply(void)
{
    static uint8_t *area;
    uint8_t id, *status = out + SPARE, *digest = status + 1 + SPARE;
    uint32_t k;
    uint64_t len, reply_len;

    take(&len, sizeof len);
    take(&id, sizeof id);
    take(&k, sizeof k);
    take(&reply_len, sizeof reply_len);
    const uint8_t *reply = lent(&area, reply_len);
    uint32_t answer = mastfrap_read_reply(len, id, k, reply, reply_len, status, digest);
    printf("%u ", (unsigned)mastfrap_difference(len, id, k, reply, reply_len));
    print(answer, 1 + SPARE + MASTFRAP_DIGEST_BYTES);
}

int main(void)
{
    int call;

    setvbuf(stdout, NULL, _IOLBF, BUFSIZ); /* so that the lines before a fault are there */
    while ((call = getchar()) != EOF) {
        memset(out, 0xaa, sizeof out);
        if (call == 'P')
            lend_program();
        else if (call == 'D' && program != NULL)
            hash_program();
        else if (call == 'M' && program != NULL)
            make_frame();
        else if (call == 'R')
            read_reply();
        else
            return 2;
    }
    return 0;
}
