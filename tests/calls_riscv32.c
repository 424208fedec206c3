/*
 * Makes the head's four calls on riscv32, one after the other, as standard input asks; lent.py is the other side. It needs read,
 * write and _exit, which firmware/linux_riscv32.s has.
 *
 * A call comes as a struct asked and so many bytes of memory, and goes back as its answer, four bytes, and the memory after it. The
 * arguments stand in the call's own order, a pointer as its place in the memory. That begins on a word, so the sender decides what
 * is lent on a word and what is not.
 */
#include <stddef.h>

#include "mastfrap.h"

#define MEMORY_BYTES 524288

enum { BEGIN, GATHER, ACT, RESET };

struct asked {
    uint32_t call, memory_len;
    uint64_t argument[19];
};

long read(int file, void *to, size_t n);
long write(int file, const void *from, size_t n);
_Noreturn void _exit(int status);

static struct asked asked;
static struct {
    uint32_t answer;
    uint8_t memory[MEMORY_BYTES];
} given;

/* Whether all of it came: an input that ends before it does is the end, and one that ends within it a failure. */
static int get(void *to, uint32_t n)
{
    for (uint32_t got = 0; got < n;) {
        long k = read(0, (uint8_t *)to + got, n - got);
        if (k == 0 && got == 0)
            return 0;
        if (k <= 0)
            _exit(1);
        got += k;
    }
    return 1;
}

static void put(const void *from, uint32_t n)
{
    for (uint32_t at = 0; at < n;) {
        long k = write(1, (const uint8_t *)from + at, n - at);
        if (k <= 0)
            _exit(1);
        at += k;
    }
}

static uint8_t *bytes(int k)
{
    return given.memory + (uint32_t)asked.argument[k];
}

static uint32_t *words(int k)
{
    return (uint32_t *)bytes(k);
}

static uint32_t answer(void)
{
    const uint64_t *a = asked.argument;

    switch (asked.call) {
    case BEGIN:
        return mastfrap_begin(words(0), bytes(1), bytes(2), a[3], bytes(4), bytes(5), a[6], a[7], bytes(8), a[9], a[10], bytes(11),
                              bytes(12), a[13], words(14), a[15], words(16), bytes(17), bytes(18));
    case GATHER:
        return mastfrap_gather(words(0), bytes(1), a[2]);
    case ACT:
        return mastfrap_act(words(0), bytes(1), bytes(2), a[3], bytes(4), a[5], words(6), a[7], words(8), words(9), bytes(10),
                            bytes(11));
    case RESET:
        return mastfrap_reset(bytes(0), a[1], bytes(2), a[3], a[4], a[5], bytes(6), bytes(7), bytes(8), a[9], bytes(10), a[11]);
    default:
        _exit(1);
    }
}

int main(void)
{
    while (get(&asked, sizeof asked)) {
        if (asked.memory_len > MEMORY_BYTES || !get(given.memory, asked.memory_len))
            _exit(1);
        given.answer = answer();
        put(&given, sizeof given.answer + asked.memory_len);
    }
    return 0;
}
