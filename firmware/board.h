/*
 * What the firmware (head.c) needs of a head's board: fit these to yours. linux.c is a board for tests, on standard input and
 * output.
 */
#ifndef BOARD_H
#define BOARD_H

#include <stdint.h>

/* What the loader is lent. No pointer is null, also where its length is 0; ram and uds overlap nothing else that is lent. */
struct board {
    const uint8_t *record;        /* the reset record, 256 bytes */
    const uint8_t *udi;           /* the identity, 8 bytes */
    const uint8_t *slot[2];       /* the flash */
    uint32_t slot_len[2];         /* 0 where there is none */
    uint32_t program_size[2];     /* of the program at the front of each slot; 0 where there is none */
    const uint8_t *built_in;      /* the digest that type 0 allows, 32 bytes */
    uint8_t *ram;                 /* where programs go to and run: what the processor sees at 0x40000000, where they start */
    uint32_t ram_len;             /* 1 to 131,072 */
    uint32_t *uds;                /* the UDS, eight words of four bytes each, lowest first; a start sets them to zero */
};

/* Everything that comes before the loader: RAM filled and scrambled, record, UDI and UDS read. Called once. */
const struct board *board(void);

/* Waits for a byte from the cable. */
uint8_t uart_read(void);

/* Sends a reply. */
void uart_write(const uint8_t *reply, uint32_t n);

/*
 * why is 0: steady, the head waits for the server. Otherwise it has stopped until a power cycle, and the lamp blinks red, once for
 * each call, the same for every number. A board with a display shows the number, which is that of a stop or a refusal.
 */
void lamp(uint32_t why);

/*
 * Hands the CDI to the program, clears the firmware's own memory and the stack that the calls used, where the device secret, the
 * user secret and the CDI still are, and jumps.
 */
_Noreturn void run(uint32_t address, uint32_t size, const uint8_t cdi[32]);

#endif
