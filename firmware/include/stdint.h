/* What this repository's C needs of <stdint.h>, for the kit's clang, which comes without headers. */
#ifndef FIRMWARE_STDINT_H
#define FIRMWARE_STDINT_H

typedef __UINT8_TYPE__ uint8_t;
typedef __UINT32_TYPE__ uint32_t;
typedef __UINT64_TYPE__ uint64_t;
typedef __UINTPTR_TYPE__ uintptr_t;

#endif
