/*
 * The firmware of a head, from reset to start or stop, over the proved calls of mastfrap.h. The hardware is behind board.h.
 *
 * It acts exactly when a frame is whole, and lends what begin was lent, so that no call is refused. If one is, something is wrong
 * with the board's memory: every answer that does not lead on from the call that gave it stops the head, with the lamp.
 */
#include "board.h"
#include "mastfrap.h"

static uint32_t numbers[MASTFRAP_STATE_NUMBERS];
static _Alignas(4) uint8_t bytes[MASTFRAP_STATE_BYTES]; /* aligned to a word, it is copied quicker */
static uint8_t room[MASTFRAP_FRAME_BYTES], cdi[MASTFRAP_CDI_BYTES], digest[MASTFRAP_DIGEST_BYTES];
static uint32_t start[2]; /* address and size */

/* This and act stay out of main: inlined, the stack for the arguments of both would be held during the deepest call. */
__attribute__((noinline)) static uint32_t begin(const struct board *b)
{
    return mastfrap_begin(numbers, bytes, b->record, MASTFRAP_RECORD_BYTES, b->udi, b->slot[0], b->slot_len[0], b->program_size[0],
                          b->slot[1], b->slot_len[1], b->program_size[1], b->built_in, b->ram, b->ram_len, b->uds,
                          MASTFRAP_UDS_WORDS, start, cdi, digest);
}

/* Acts on a whole frame and sends the reply, if there is one: also where the head starts or stops with it. */
__attribute__((noinline)) static uint32_t act(const struct board *b)
{
    uint32_t reply_len = 0; /* a refused call leaves it */
    uint32_t answer = mastfrap_act(numbers, bytes, room, sizeof room, b->ram, b->ram_len, b->uds, MASTFRAP_UDS_WORDS, &reply_len,
                                   start, cdi, digest);

    if (reply_len != 0)
        uart_write(room, reply_len);
    return answer;
}

static _Noreturn void show(uint32_t why)
{
    for (;;)
        lamp(why);
}

/* Comes back only where begin or act says that the head goes on. These two can start a program; gathering cannot. */
static void go_on(uint32_t answer)
{
    if (answer == MASTFRAP_STARTED)
        run(start[0], start[1], cdi);
    if (answer != MASTFRAP_CONTINUE)
        show(answer);
}

int main(void)
{
    const struct board *b = board();

    go_on(begin(b));
    lamp(MASTFRAP_CONTINUE);
    for (;;) {
        uint32_t answer = mastfrap_gather(numbers, bytes, uart_read());

        if (answer == MASTFRAP_WHOLE)
            go_on(act(b));
        else if (answer != MASTFRAP_CONTINUE)
            show(answer);
    }
}
