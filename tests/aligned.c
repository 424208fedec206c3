/*
 * Tests an alignment that firmware/retarget.py has told the compiler. A processor without words at every place would fault, or read
 * another one; the emulator does neither, so this does.
 */
#include <stdint.h>

void mastfrap_test_alignment(const void *p, uint32_t alignment);

void mastfrap_test_alignment(const void *p, uint32_t alignment)
{
    if (((uintptr_t)p & (alignment - 1)) != 0)
        __builtin_trap();
}
