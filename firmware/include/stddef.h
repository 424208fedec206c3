/* What this repository's C needs of <stddef.h>, for the kit's clang, which comes without headers. */
#ifndef FIRMWARE_STDDEF_H
#define FIRMWARE_STDDEF_H

typedef __SIZE_TYPE__ size_t;
#define NULL ((void *)0)

#endif
