/*
 * What compiled code calls to copy, set and compare memory, for a processor without a C library: by words where both sides are
 * aligned to one, since the processor cannot do it elsewhere, and then four bytes at a time, which halves the instructions. Compile
 * it with -fno-builtin: otherwise the compiler may see what a loop does, and make it a call of the function that it is in. Weak, so
 * that a firmware's own functions go first.
 */
#include <stddef.h>
#include <stdint.h>
#include <string.h>

typedef uint32_t __attribute__((may_alias)) word;

static int in_words(uintptr_t place)
{
    return place % sizeof(word) == 0;
}

/* Apart from memcpy, since a firmware's own may copy in any order, and memmove needs this one. */
static void *copy_forward(void *to, const void *from, size_t n)
{
    uint8_t *t = to;
    const uint8_t *f = from;

    if (in_words((uintptr_t)t | (uintptr_t)f))
        for (; n >= 4; n -= 4, t += 4, f += 4)
            *(word *)t = *(const word *)f;
    for (; n >= 4; n -= 4, t += 4, f += 4) {
        t[0] = f[0];
        t[1] = f[1];
        t[2] = f[2];
        t[3] = f[3];
    }
    for (; n != 0; n--)
        *t++ = *f++;
    return to;
}

__attribute__((weak)) void *memcpy(void *to, const void *from, size_t n)
{
    return copy_forward(to, from, n);
}

/* From the front, unless that would write over bytes that are still to be copied. */
__attribute__((weak)) void *memmove(void *to, const void *from, size_t n)
{
    uint8_t *t = to;
    const uint8_t *f = from;

    if ((uintptr_t)t - (uintptr_t)f >= n)
        return copy_forward(to, from, n);
    while (n-- != 0)
        t[n] = f[n];
    return to;
}

__attribute__((weak)) void *memset(void *to, int byte, size_t n)
{
    uint8_t *t = to;
    word four = (uint8_t)byte * 0x01010101u;

    for (; n != 0 && !in_words((uintptr_t)t); n--)
        *t++ = (uint8_t)byte;
    for (; n >= 4; n -= 4, t += 4)
        *(word *)t = four;
    for (; n != 0; n--)
        *t++ = (uint8_t)byte;
    return to;
}

__attribute__((weak)) int memcmp(const void *a, const void *b, size_t n)
{
    const uint8_t *p = a, *q = b;

    for (; n != 0; n--, p++, q++)
        if (*p != *q)
            return *p - *q;
    return 0;
}
