/*
 * The proved parts of Mastfrap that a C program can call, or one in any language that calls C: BLAKE2s
 * (RFC 7693) as proved in crates/blake2s, the server's half of a load as proved in crates/client, why a
 * loom did not start as proved in crates/diagnosis, design spools as proved in crates/spool, and the head
 * itself, for its firmware, as proved in crates/abi.
 *
 *     scripts/archive blake2s    target/staticlib/libblake2s.a    mastfrap_blake2s
 *     scripts/archive client     target/staticlib/libclient.a     mastfrap_make_frame, _read_reply, _difference
 *     scripts/archive diagnosis  target/staticlib/libdiagnosis.a  mastfrap_diagnose
 *     scripts/archive spool      target/staticlib/libspool.a      mastfrap_spool_read, _look, _write, _salvage
 *     scripts/archive abi        target/staticlib/libabi.a        mastfrap_begin, _gather, _act, _reset
 *     firmware/build.sh          target/riscv32/libmastfrap.a     the same four, for riscv32
 *
 * Link those whose calls you use: they have no symbol in common, but for the last two.
 *
 * Where several refusals apply, the first of the list below is answered. A call that answers the number
 * of a refusal has changed nothing that it was lent.
 *
 * The proof takes the caller's word for this much: each pointer is not null, also where its length
 * is 0, is aligned as its type asks and is good for its length, which is below 2^63; and nothing else, be
 * it another thread, an interrupt or a device, reads or writes these bytes meanwhile. Each call says below
 * what must not overlap.
 */
#ifndef MASTFRAP_H
#define MASTFRAP_H

#include <stdint.h>

#ifdef __cplusplus
extern "C" {
#endif

/* A length: 64 bits on every target, also where a pointer has 32. */
typedef uint64_t mastfrap_size;

/* ---- libblake2s.a */

enum {
    MASTFRAP_BLAKE2S_ACCEPTED = 0,
    MASTFRAP_BLAKE2S_OUTPUT_LENGTH = 8,  /* out_len is 0 or over 32 */
    MASTFRAP_BLAKE2S_KEY_LENGTH = 9,     /* key_len is over 32 */
    MASTFRAP_BLAKE2S_MESSAGE_LENGTH = 10 /* msg_len is over 4,294,967,295 */
};

/*
 * Writes the hash of the message, out_len bytes long, to out; key_len 0 is no key.
 * If the call is refused, no byte of out is changed. out overlaps neither key nor msg.
 */
uint32_t mastfrap_blake2s(const uint8_t *key, mastfrap_size key_len, const uint8_t *msg,
                          mastfrap_size msg_len, uint8_t *out, mastfrap_size out_len);

/* ---- libclient.a */

enum {
    MASTFRAP_CLIENT_ACCEPTED = 0,
    MASTFRAP_CLIENT_FRAME_ROOM = 3,       /* room_len is under 129 (making only) */
    MASTFRAP_CLIENT_PROGRAM_LENGTH = 40,  /* program_len is 0 or over 131,072 */
    MASTFRAP_CLIENT_FRAME_ID = 41,        /* id is over 3 */
    MASTFRAP_CLIENT_FRAME_NUMBER = 42,    /* k is over ceil(program_len / 127) */
    MASTFRAP_CLIENT_UNEXPECTED_REPLY = 43 /* the reply is not the expected one (reading only) */
};

enum {
    MASTFRAP_DIFFERENCE_NOTHING = 0,
    MASTFRAP_DIFFERENCE_HEADER = 1, /* bit 7, frame ID, endpoint, length code; or reply_len is 0 */
    MASTFRAP_DIFFERENCE_LENGTH = 2, /* reply_len is not that of the whole frame */
    MASTFRAP_DIFFERENCE_CODE = 3,   /* the code is not the one that frame k asks for */
    MASTFRAP_DIFFERENCE_STATUS = 4, /* the status byte is not bit 2 of the header */
    MASTFRAP_DIFFERENCE_FILLER = 5  /* a byte behind status and digest is not zero */
};

enum {
    MASTFRAP_PROGRAM_MOST = 131072, /* the longest program; a head with less RAM takes less */
    MASTFRAP_BLOCK_BYTES = 127,     /* how many bytes of the program a block carries */
    MASTFRAP_FRAME_BYTES = 129,     /* a command frame, and the longest reply */
    MASTFRAP_USS_BYTES = 32,
    MASTFRAP_DIGEST_BYTES = 32
};

/*
 * To load a head: for k from 0 to ceil(program_len / 127) make frame k, send it, and read the reply
 * before the next. Frame 0 is the load, and frame k the k-th block of 127 program bytes. The reply
 * has 5 bytes, and that to the last frame 129.
 */

/*
 * Writes command frame k of the program, for the firmware and with this frame ID, to the first 129
 * bytes of room; what the program does not fill is zero, and the rest of room stays. If used is
 * not 0, the program gets the user secret: the load has flag 1 and the 32 bytes at uss, which may
 * be all zero. If used is 0, it has flag 0 and 32 zeros, whatever is at uss.
 * If the call is refused, no byte of room is changed.
 *
 * More that the proof takes the caller's word for: uss is good for 32 bytes, also where it is not
 * used. room overlaps neither program nor uss.
 */
uint32_t mastfrap_make_frame(const uint8_t *program, mastfrap_size program_len, uint8_t id, uint8_t used,
                             const uint8_t uss[MASTFRAP_USS_BYTES], uint32_t k, uint8_t *room,
                             mastfrap_size room_len);

/*
 * Reads the reply to command frame k of a program of program_len bytes. It is taken exactly when it
 * is one whole frame with bit 7 of its header zero, the same frame ID, endpoint 2, the code and
 * length that frame k asks for, a status of 0 or 1 that bit 2 of the header has too, and zeros in
 * what is left.
 *
 * If it is taken, *status is the status, and digest the program's digest as the head measured it if
 * frame k is the last, or else 32 zeros. Status 1 for the load says that the head has not the RAM
 * for this program, and goes on waiting. If the call is refused, *status and digest are not changed.
 *
 * More that the proof takes the caller's word for: digest is good for 32 bytes. status, digest and
 * reply do not overlap.
 */
uint32_t mastfrap_read_reply(mastfrap_size program_len, uint8_t id, uint32_t k, const uint8_t *reply,
                             mastfrap_size reply_len, uint8_t *status,
                             uint8_t digest[MASTFRAP_DIGEST_BYTES]);

/*
 * Says in what the reply to command frame k of a program of program_len bytes differs from the one
 * that mastfrap_read_reply takes: 0 exactly where that call takes it, or refuses program_len, id or
 * k (40, 41, 42), since no reply is expected then. It writes nothing.
 */
uint32_t mastfrap_difference(mastfrap_size program_len, uint8_t id, uint32_t k, const uint8_t *reply,
                             mastfrap_size reply_len);

/* ---- libabi.a: the head */

/*
 * What begin, gather and act answer. After a start or a stop every later gather and act on the state is
 * refused with 2, until the next begin.
 */
enum {
    MASTFRAP_CONTINUE = 0, /* the record or the byte is taken, or the frame was acted on */

    MASTFRAP_REFUSED_STATE = 1,         /* the memory holds no state, or one out of its range (gather, act) */
    MASTFRAP_REFUSED_ENDED = 2,         /* the head has started or stopped (gather, act) */
    MASTFRAP_REFUSED_OUT_OF_TURN = 47,  /* a frame is whole (gather), or none is (act) */
    MASTFRAP_REFUSED_REPLY_ROOM = 3,    /* room_len is under 129 (act) */
    MASTFRAP_REFUSED_RAM_LENGTH = 4,    /* ram_len is not that at begin (act) */
    MASTFRAP_REFUSED_SECRET_LENGTH = 5, /* uds_len is not 8 (begin, act) */
    MASTFRAP_REFUSED_RECORD_LENGTH = 6, /* record_len is not 256 (begin) */
    MASTFRAP_REFUSED_RAM_SIZE = 7,      /* ram_len is 0 or over 131,072 (begin) */

    MASTFRAP_STOPPED_TYPE = 20,         /* the record's type is 6 or above (begin) */
    MASTFRAP_STOPPED_HEADER = 22,       /* bit 7 or bit 2 of a header is set (gather) */
    MASTFRAP_STOPPED_COMMAND = 23,      /* the command is not allowed now, or unknown (act) */
    MASTFRAP_STOPPED_BODY_LENGTH = 24,  /* the command has another body length (act) */
    MASTFRAP_STOPPED_DIGEST = 25,       /* the program's digest is not allowed (begin, act) */
    MASTFRAP_STOPPED_PROGRAM_SIZE = 26, /* the program in flash has size 0, over the slot or over RAM (begin) */

    MASTFRAP_WHOLE = 64,  /* the byte is taken, and with it a frame is whole: act on it (gather) */
    MASTFRAP_STARTED = 65 /* the program at the front of RAM is to run (begin, act) */
};

/*
 * The state of a head between two calls, in memory that the caller lends: begin writes it, and it may be
 * moved and copied.
 *
 *     numbers   0             the RAM's length
 *               1             the program's size
 *               2             the number of the block that is waited for
 *     bytes     0 to 127      the body of the frame that is being gathered or is whole
 *               128           its header
 *               129           how many of its bytes have come, the header among them
 *               130           0 waiting, 1 loading, 2 started, 3 stopped
 *               131           the sum of 1, the program must have an allowed digest; 2, the measurement is
 *                             measured_id (RESET_SEED); 4, the user secret is used; 8, there is a second
 *                             allowed digest
 *               132 to 163    the first allowed digest
 *               164 to 195    measured_id
 *               196 to 203    the UDI
 *               204 to 235    the user secret (USS)
 *               236 to 267    the second allowed digest; begin leaves zeros if there is none
 *
 * Memory with another number in byte 130 or 131 holds no state. docs/STATES.md has the ranges. Memory that
 * a begin has written, which was not refused, and that gather and act alone have changed since, is never
 * refused with 1.
 */
#define MASTFRAP_STATE_NUMBERS 3
#define MASTFRAP_STATE_BYTES 268

#define MASTFRAP_RECORD_BYTES 256
#define MASTFRAP_UDI_BYTES 8
#define MASTFRAP_UDS_WORDS 8
#define MASTFRAP_CDI_BYTES 32

/*
 * To run a head: begin, with the reset record. While the answer is 0, gather each byte from the cable, and
 * at 64 act on the frame and send the reply. 65 is a start, and every other answer a stop, with the lamp.
 * firmware/head.c does so.
 *
 * The reset record has 256 bytes: 0 to 3 the type, 4 to 7 the mask, both lowest byte first; 8 to 39 the
 * first allowed digest, 40 to 71 measured_id, and, if mask bit 1 is set, 72 to 103 the second allowed
 * digest. The rest, from 72 on or, if that bit is set, from 104 on, is data for the next program: no call
 * reads it, and begin leaves the record as it was, so hand it over yourself. Mask bit 0 is RESET_SEED, and
 * bits 2 to 31 are ignored. Types 0 and 2 load slot 0, 1 and 3 slot 1, 4 and 5 what the server sends; types
 * 2, 3 and 5 allow the record's digests, type 0 the one that is built in, and types 1 and 4 any.
 *
 * The device secret (UDS) is eight words, each four of its bytes, lowest first: where its first byte is
 * 0x11, the lowest byte of uds[0] is. It is read only at a start, and each word is 0 after it. What a call
 * leaves on the stack is not cleared: after a start the device secret, the user secret and the CDI can be
 * found there, so clear it before the program runs.
 *
 * The program is at the front of ram, and runs at start[0], which is 0x40000000: ram is what the processor
 * sees there.
 *
 * More that the proof takes the caller's word for, in all four: each array is good for as many bytes or
 * words as stand in its brackets, and nothing that a call writes overlaps anything else that it is lent.
 */

/*
 * Begins, from the reset record, the device's identity (UDI), two slots of flash with the size of the
 * program at the front of each, and the digest that is built into the firmware for type 0. For types 0 to
 * 3 this call is the whole boot: the program is put in RAM, and is started (65) if its digest is allowed.
 * For types 4 and 5 a session begins (0).
 *
 * Unless the call is refused, numbers and bytes hold the state. After a start start[0] is the address and
 * start[1] the size of the program, cdi its Compound Device Identifier and digest its digest, and each word
 * of uds is 0; otherwise start, cdi and digest are zeros.
 */
uint32_t mastfrap_begin(uint32_t numbers[MASTFRAP_STATE_NUMBERS], uint8_t bytes[MASTFRAP_STATE_BYTES],
                        const uint8_t *record, mastfrap_size record_len,
                        const uint8_t udi[MASTFRAP_UDI_BYTES],
                        const uint8_t *slot0, mastfrap_size slot0_len, mastfrap_size size0,
                        const uint8_t *slot1, mastfrap_size slot1_len, mastfrap_size size1,
                        const uint8_t built_in[MASTFRAP_DIGEST_BYTES],
                        uint8_t *ram, mastfrap_size ram_len, uint32_t *uds, mastfrap_size uds_len,
                        uint32_t start[2], uint8_t cdi[MASTFRAP_CDI_BYTES],
                        uint8_t digest[MASTFRAP_DIGEST_BYTES]);

/* Gathers a byte from the cable, in place. */
uint32_t mastfrap_gather(uint32_t numbers[MASTFRAP_STATE_NUMBERS], uint8_t bytes[MASTFRAP_STATE_BYTES],
                         uint8_t byte);

/*
 * Acts on the frame that is whole. ram is as long as at begin, and holds what the last call left there.
 *
 * Unless the call is refused, *reply_len says how many bytes at the front of room are a reply, 0 for none,
 * and the rest of room stays; bit 2 of a reply's header, its first byte, is set exactly where the frame is
 * a load that is not taken. numbers, bytes, start, cdi, digest and uds are written by the rule of begin.
 */
uint32_t mastfrap_act(uint32_t numbers[MASTFRAP_STATE_NUMBERS], uint8_t bytes[MASTFRAP_STATE_BYTES],
                      uint8_t *room, mastfrap_size room_len, uint8_t *ram, mastfrap_size ram_len,
                      uint32_t *uds, mastfrap_size uds_len, uint32_t *reply_len, uint32_t start[2],
                      uint8_t cdi[MASTFRAP_CDI_BYTES], uint8_t digest[MASTFRAP_DIGEST_BYTES]);

/* What a reset is asked for: types and mask bits of the next record. */
enum {
    MASTFRAP_TYPE_FLASH0 = 0,
    MASTFRAP_TYPE_FLASH1 = 1,
    MASTFRAP_TYPE_FLASH0_VER = 2,
    MASTFRAP_TYPE_FLASH1_VER = 3,
    MASTFRAP_TYPE_CLIENT = 4,
    MASTFRAP_TYPE_CLIENT_VER = 5,

    MASTFRAP_MASK_RESET_SEED = 1,
    MASTFRAP_MASK_SECOND_DIGEST = 2
};

/* What a reset answers. */
enum {
    MASTFRAP_RESET_ACCEPTED = 0,
    MASTFRAP_RESET_NEXT_TYPE = 44,     /* next_type is over 5 */
    MASTFRAP_RESET_RECORD_LENGTH = 45, /* record_len is not 256 */
    MASTFRAP_RESET_INPUT_LENGTH = 46   /* cdi_len or seed_len is not 32, or next_data_len not as the mask asks */
};

#define MASTFRAP_SEED_BYTES 32
#define MASTFRAP_NEXT_DATA_BYTES 184        /* the data in a record with one digest */
#define MASTFRAP_NEXT_DATA_BYTES_SECOND 152 /* and in one with a second: mask bit 1 */

/*
 * Hands over to the next program: writes the reset record from which the next begin starts it, by the layout
 * above, and clears the CDI. It needs no state: the running program asks for it, after a start. cdi is that
 * program's, as begin or act gave it at its start, kept where the program cannot write.
 *
 * Unless the call is refused, record holds next_type, the mask with all of its 32 bits, first, measured_id,
 * second if mask bit 1 is set, and next_data, which fills the rest: 152 bytes with that bit, and 184
 * without it; fill shorter data with zeros.
 * With mask bit 0 (RESET_SEED) measured_id is the BLAKE2s digest of the 32 bytes at cdi and then the 32 at
 * seed: from it, the device secret and the user secret, if there is one, comes the CDI of the next start,
 * whatever the next program is. Without it measured_id is 32 zeros, and the next CDI that of a direct start.
 * Then cdi holds 32 zeros. If the call is refused, neither record nor cdi is changed.
 *
 * What the call leaves on the stack is not cleared: the CDI can be found there.
 *
 * second is good for 32 bytes also where mask bit 1 is clear.
 */
uint32_t mastfrap_reset(uint8_t *cdi, mastfrap_size cdi_len, const uint8_t *seed, mastfrap_size seed_len,
                        uint32_t next_type, uint32_t mask, const uint8_t first[MASTFRAP_DIGEST_BYTES],
                        const uint8_t second[MASTFRAP_DIGEST_BYTES], const uint8_t *next_data,
                        mastfrap_size next_data_len, uint8_t *record, mastfrap_size record_len);

/* ---- libdiagnosis.a: why a loom did not start */

/*
 * What a diagnosis answers besides these: MASTFRAP_REFUSED_RECORD_LENGTH (6) and MASTFRAP_REFUSED_RAM_SIZE
 * (7), the stops MASTFRAP_STOPPED_TYPE (20), _HEADER (22), _COMMAND (23), _BODY_LENGTH (24) and _DIGEST
 * (25), and MASTFRAP_STARTED (65).
 */
enum {
    MASTFRAP_REFUSED_FROM_FLASH = 48, /* the record's type is 0 to 3: the program comes from flash */

    MASTFRAP_UNFINISHED = 66, /* the bytes end in a frame that is not whole */
    MASTFRAP_WAITING = 67,    /* no good load has come */
    MASTFRAP_MISSING = 68     /* of the program so many blocks have not come: counts[3] */
};

#define MASTFRAP_DIAGNOSIS_COUNTS 4

/*
 * Says why a loom did not start, or that it has: the reset record of its head, how many bytes of RAM that
 * has, and the bytes that it heard on the cable since reset, in order and without its replies. It is what
 * the head would do that gathers each byte and acts at once on each frame that is whole: 65 exactly where
 * it starts, the number of a stop where it stops, and otherwise 66, 67 or 68, of which 66 comes first. No
 * byte is read after a start or a stop.
 *
 * Unless the call is refused, it writes of the last byte that was read, which at a stop is the byte that
 * stopped the head:
 *
 *     counts    0    its number, from 1; 0 if there is none, as at stop 20
 *               1    the number of its frame, from 1, frames for other endpoints counted; 0 if there is none
 *               2    its place in that frame: 0 is the header
 *               3    how many blocks are missing, at 68; 0 otherwise
 *     digest         the program's digest, at 65 and at 25; zeros otherwise. At 25 it is neither bytes 8 to
 *                    39 of the record nor, with mask bit 1, bytes 72 to 103
 *
 * If it is refused, counts and digest are not changed. Nothing else is ever written, and no RAM is needed.
 *
 * More that the proof takes the caller's word for: each array is good for as many numbers or bytes as stand
 * in its brackets. counts and digest overlap neither each other nor record and bytes.
 */
uint32_t mastfrap_diagnose(const uint8_t *record, mastfrap_size record_len, mastfrap_size ram_len,
                           const uint8_t *bytes, mastfrap_size bytes_len,
                           uint64_t counts[MASTFRAP_DIAGNOSIS_COUNTS],
                           uint8_t digest[MASTFRAP_DIGEST_BYTES]);

/* ---- libspool.a: design spools */

/*
 * What the four calls answer. The refusals are tested in this order; the last three block by block, so
 * that the earliest bad block's first one is answered.
 */
enum {
    MASTFRAP_SPOOL_ACCEPTED = 0,
    MASTFRAP_SPOOL_PROGRAM_LENGTH = 40, /* program_len is 0 or over 131,072 (write) */
    MASTFRAP_SPOOL_LENGTH = 50,         /* spool_len is 0, over 142,336 or no multiple of 512 (read, look,
                                           salvage), spares_len is no multiple of 512 (salvage), or the
                                           spool has no such place (look) */
    MASTFRAP_SPOOL_ROOM = 54,           /* room_len is under 472 bytes a block (read) or under 512 (write),
                                           or report_len under one entry a block (salvage) */
    MASTFRAP_SPOOL_BLOCK_CHECK = 51,    /* a block's check is not the hash of its bytes 0 to 479 (read, look) */
    MASTFRAP_SPOOL_BLOCK_NUMBER = 52,   /* its number is not its place (read, look) */
    MASTFRAP_SPOOL_BLOCK_COUNT = 53     /* its count is not one for its place, or a byte that it does not
                                           use is not zero (read, look) */
};

/* What salvage reports of a block. */
enum {
    MASTFRAP_SPOOL_KEPT = 0,     /* it is good, and stays */
    MASTFRAP_SPOOL_REPLACED = 1, /* it was bad, and a spare stands there */
    MASTFRAP_SPOOL_LOST = 2      /* it is bad, no spare is good there, and it stays */
};

enum {
    MASTFRAP_SPOOL_BLOCK_BYTES = 512,
    MASTFRAP_SPOOL_PROGRAM_BYTES = 472, /* how many bytes of the program a block has room for */
    MASTFRAP_SPOOL_BLOCKS_MOST = 278,   /* the blocks of the longest program, MASTFRAP_PROGRAM_MOST */
    MASTFRAP_SPOOL_MOST = 142336        /* and their bytes: the longest spool */
};

/*
 * A spool is a program in blocks of 512 bytes, one behind the other. A block, numbers lowest byte first:
 *
 *     bytes     0 to 3        its number, which is its place: the first block is at 0
 *               4 to 7        how many program bytes it uses, the count
 *               8 to 479      the program bytes that it uses, and zeros
 *               480 to 511    the check: the BLAKE2s-256 of bytes 0 to 479
 *
 * All blocks but the last use 472 bytes, and the last 1 to 472; block 277 uses at most 328, so that the
 * program has at most 131,072. A block is good at a place if check, number, count and zeros are right there.
 *
 * Nothing in a block says of which program it is: one of another program can be good at the same place, in
 * a spool and among spares. So a spool that reads can have blocks of two programs; compare the digest of
 * what was read with the program's.
 */

/*
 * Writes the program that is in the spool to the front of room, and how many bytes it has to *len. The rest
 * of room stays. room has 472 bytes for each block, also where the last uses fewer.
 *
 * All blocks are looked at before any byte is written. If the call is refused, neither room nor *len is
 * changed. spool, room and *len do not overlap.
 */
uint32_t mastfrap_spool_read(const uint8_t *spool, mastfrap_size spool_len, uint8_t *room,
                             mastfrap_size room_len, mastfrap_size *len);

/*
 * Says what read finds at one place of the spool, from 0: 0 if the block is good there, and otherwise the
 * first of 51, 52 and 53 that applies to it, or 50. It writes nothing.
 */
uint32_t mastfrap_spool_look(const uint8_t *spool, mastfrap_size spool_len, mastfrap_size place);

/*
 * Writes the spool of the program, ceil(program_len / 472) blocks, to the front of room, and how many bytes
 * it has to *len. The rest of room stays. mastfrap_spool_read gives the program back.
 *
 * If the call is refused, neither room nor *len is changed. program, room and *len do not overlap.
 */
uint32_t mastfrap_spool_write(const uint8_t *program, mastfrap_size program_len, uint8_t *room,
                              mastfrap_size room_len, mastfrap_size *len);

/*
 * Mends the spool in place: where a block is bad, the first spare that is good at its place is put there, if
 * one is. The spares are blocks of 512 bytes, one behind the other in any order, or none. For each block an
 * entry is written to report, at the front and in order: kept (0), replaced (1) or lost (2). The rest of
 * report stays, and so does every byte of a block that is kept or lost. If none is lost,
 * mastfrap_spool_read takes the spool, given room.
 *
 * Bad blocks and bad spares are no refusal here. If the call is refused, neither spool nor report is
 * changed. spool, spares and report do not overlap.
 */
uint32_t mastfrap_spool_salvage(uint8_t *spool, mastfrap_size spool_len, const uint8_t *spares,
                                mastfrap_size spares_len, uint8_t *report, mastfrap_size report_len);

#ifdef __cplusplus
}
#endif

#endif
