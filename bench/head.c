/*
 * The peer that the proved head is measured against: document 01's head as ordinary C, with the three calls of include/mastfrap.h.
 * Its state is the lent memory itself. Link it with reference.c.
 */
#include <stddef.h>
#include <stdint.h>
#include <string.h>

#include "mastfrap.h"

void reference_blake2s(const uint8_t *msg, size_t n, uint8_t out[32]);

#define RAM_MOST 131072
#define ADDRESS 0x40000000

enum { WAITING, LOADING, STARTED, STOPPED };
enum { VERIFY = 1, CHAINED = 2, USS_USED = 4, HAS_SECOND = 8 };

/* The lent bytes and numbers. */
struct frame {
    uint8_t body[128], header, got, phase, flags, first[32], measured_id[32], udi[8], uss[32], second[32];
};

struct numbers {
    uint32_t ram_len, size, block;
};

/* The head in a call that is not refused: its state, what else is lent, and what the call gives. */
struct head {
    struct numbers *n;
    struct frame *f;
    uint8_t *room, *ram;
    uint32_t *uds, *reply_len, *start;
    uint8_t *cdi, *digest;
};

static uint32_t number(const uint8_t *p)
{
    return p[0] | p[1] << 8 | p[2] << 16 | (uint32_t)p[3] << 24;
}

static int bad(uint8_t header)
{
    return header & 0x84;
}

static unsigned length(uint8_t header)
{
    static const uint8_t lengths[4] = {1, 4, 32, 128};
    return lengths[header & 3];
}

static int for_firmware(uint8_t header)
{
    return (header >> 3 & 3) == 2;
}

static int whole(const struct frame *f)
{
    return for_firmware(f->header) && f->got == length(f->header) + 1;
}

/* Whether the program has a block of this number: the first test keeps the product within 32 bits. */
static int has_block(uint32_t size, uint32_t block)
{
    return block <= RAM_MOST / 127 && 127 * block < size;
}

/* ---- refused calls */

static int in_range(const struct numbers *n, const struct frame *f)
{
    if (n->ram_len == 0 || n->ram_len > RAM_MOST || f->phase > STOPPED || f->flags > 15)
        return 0;
    if (f->got == 0 ? f->header != 0 : bad(f->header) || (f->got > length(f->header) && !whole(f)))
        return 0;
    return f->phase != LOADING || (n->size >= 1 && n->size <= n->ram_len && has_block(n->size, n->block));
}

static uint32_t state_refusal(const struct numbers *n, const struct frame *f, int wants_whole)
{
    if (!in_range(n, f))
        return 1;
    if (f->phase == STARTED || f->phase == STOPPED)
        return 2;
    return whole(f) == wants_whole ? 0 : 47;
}

/* ---- ends */

static void end(struct numbers *n, struct frame *f, uint8_t phase)
{
    n->size = 0;
    n->block = 0;
    memset(f, 0, sizeof *f);
    f->phase = phase;
}

static uint32_t stop(struct numbers *n, struct frame *f, uint32_t why)
{
    end(n, f, STOPPED);
    return why;
}

static uint32_t start(struct head *h, const uint8_t digest[32])
{
    struct frame *f = h->f;
    uint8_t string[97];

    for (int i = 0; i < 32; i++)
        string[i] = h->uds[i / 4] >> 8 * (i % 4);
    string[32] = (f->flags & USS_USED ? 1 : 0) | (f->flags & CHAINED ? 2 : 0);
    memcpy(string + 33, f->flags & CHAINED ? f->measured_id : digest, 32);
    memcpy(string + 65, f->uss, 32);
    reference_blake2s(string, f->flags & USS_USED ? 97 : 65, h->cdi);
    memcpy(h->digest, digest, 32);
    memset(h->uds, 0, 32);
    h->start[0] = ADDRESS;
    h->start[1] = h->n->size;
    end(h->n, f, STARTED);
    return MASTFRAP_STARTED;
}

static int allowed(const struct frame *f, const uint8_t digest[32])
{
    return memcmp(f->first, digest, 32) == 0 || (f->flags & HAS_SECOND && memcmp(f->second, digest, 32) == 0);
}

static uint32_t start_or_stop(struct head *h, const uint8_t digest[32])
{
    if (h->f->flags & VERIFY && !allowed(h->f, digest))
        return stop(h->n, h->f, 25);
    return start(h, digest);
}

static void nothing_started(uint32_t start[2], uint8_t cdi[32], uint8_t digest[32])
{
    memset(start, 0, 8);
    memset(cdi, 0, 32);
    memset(digest, 0, 32);
}

/* ---- begin */

static uint32_t boot(struct head *h, const uint8_t *slot, uint64_t slot_len, uint64_t size)
{
    uint8_t digest[32];

    if (size == 0 || size > slot_len || size > h->n->ram_len)
        return stop(h->n, h->f, 26);
    memcpy(h->ram, slot, size);
    h->n->size = size;
    reference_blake2s(h->ram, size, digest);
    return start_or_stop(h, digest);
}

static void read_record(struct frame *f, const uint8_t *record, const uint8_t udi[8], const uint8_t built_in[32])
{
    uint32_t type = number(record);

    memset(f, 0, sizeof *f);
    f->flags = (type != 1 && type != 4 ? VERIFY : 0) | (record[4] & 1 ? CHAINED : 0);
    memcpy(f->first, type == 0 ? built_in : record + 8, 32);
    if (type != 0 && record[4] & 2) {
        f->flags |= HAS_SECOND;
        memcpy(f->second, record + 72, 32);
    }
    memcpy(f->measured_id, record + 40, 32);
    memcpy(f->udi, udi, 8);
}

uint32_t mastfrap_begin(uint32_t numbers[3], uint8_t bytes[268], const uint8_t *record, mastfrap_size record_len,
                        const uint8_t udi[8], const uint8_t *slot0, mastfrap_size slot0_len, mastfrap_size size0,
                        const uint8_t *slot1, mastfrap_size slot1_len, mastfrap_size size1, const uint8_t built_in[32],
                        uint8_t *ram, mastfrap_size ram_len, uint32_t *uds, mastfrap_size uds_len, uint32_t start[2],
                        uint8_t cdi[32], uint8_t digest[32])
{
    struct head h = {(struct numbers *)numbers, (struct frame *)bytes, NULL, ram, uds, NULL, start, cdi, digest};

    if (uds_len != 8)
        return 5;
    if (record_len != 256)
        return 6;
    if (ram_len == 0 || ram_len > RAM_MOST)
        return 7;
    *h.n = (struct numbers){ram_len, 0, 0};
    read_record(h.f, record, udi, built_in);
    nothing_started(start, cdi, digest);
    uint32_t type = number(record);
    if (type > 5)
        return stop(h.n, h.f, 20);
    if (type >= 4)
        return MASTFRAP_CONTINUE;
    return type % 2 == 0 ? boot(&h, slot0, slot0_len, size0) : boot(&h, slot1, slot1_len, size1);
}

/* ---- gather */

static void clear_frame(struct frame *f)
{
    memset(f->body, 0, 128);
    f->header = 0;
    f->got = 0;
}

uint32_t mastfrap_gather(uint32_t numbers[3], uint8_t bytes[268], uint8_t byte)
{
    struct numbers *n = (struct numbers *)numbers;
    struct frame *f = (struct frame *)bytes;
    uint32_t refused = state_refusal(n, f, 0);

    if (refused != 0)
        return refused;
    if (f->got == 0) {
        if (bad(byte))
            return stop(n, f, 22);
        f->header = byte;
        f->got = 1;
        return MASTFRAP_CONTINUE;
    }
    if (for_firmware(f->header))
        f->body[f->got - 1] = byte;
    if (f->got++ < length(f->header))
        return MASTFRAP_CONTINUE;
    if (for_firmware(f->header))
        return MASTFRAP_WHOLE;
    clear_frame(f);
    return MASTFRAP_CONTINUE;
}

/* ---- act */

static uint32_t reply(struct head *h, uint8_t code, int length_code, const void *content, size_t n)
{
    size_t len = length((uint8_t)length_code);

    memset(h->room, 0, 1 + len);
    h->room[0] = (h->f->header & 0x60) | 2 << 3 | length_code;
    h->room[1] = code;
    memcpy(h->room + 2, content, n);
    if (code != 0x02 && h->room[2] == 1) /* the name has no status */
        h->room[0] |= 1 << 2;
    *h->reply_len = 1 + len;
    clear_frame(h->f);
    return MASTFRAP_CONTINUE;
}

static uint32_t load(struct head *h)
{
    struct frame *f = h->f;
    uint32_t size = number(f->body + 1);
    uint8_t flag = f->body[5], status = size == 0 || size > h->n->ram_len || flag > 1;

    if (!status) {
        f->phase = LOADING;
        f->flags = (f->flags & ~USS_USED) | (flag == 1 ? USS_USED : 0);
        h->n->size = size;
        h->n->block = 0;
        memcpy(f->uss, f->body + 6, 32);
    }
    return reply(h, 0x04, 1, &status, 1);
}

static uint32_t block(struct head *h)
{
    uint32_t at = h->n->block * 127, left = h->n->size - at;
    uint8_t content[33] = {0};

    memcpy(h->ram + at, h->f->body + 1, left < 127 ? left : 127);
    if (has_block(h->n->size, ++h->n->block))
        return reply(h, 0x06, 1, content, 1);
    reference_blake2s(h->ram, h->n->size, content + 1);
    reply(h, 0x07, 3, content, 33);
    return start_or_stop(h, content + 1);
}

static uint32_t perform(struct head *h)
{
    static const uint8_t name[12] = {'t', 'k', '1', ' ', 'm', 'k', 'd', 'f', 1};
    struct frame *f = h->f;
    unsigned len = length(f->header);
    uint8_t content[9] = {0};

    if (f->phase == LOADING)
        return f->body[0] != 0x05 ? stop(h->n, f, 23) : len != 128 ? stop(h->n, f, 24) : block(h);
    switch (f->body[0]) {
    case 0x01:
        return len != 1 ? stop(h->n, f, 24) : reply(h, 0x02, 2, name, 12);
    case 0x08:
        memcpy(content + 1, f->udi, 8);
        return len != 1 ? stop(h->n, f, 24) : reply(h, 0x09, 2, content, 9);
    case 0x03:
        return len != 128 ? stop(h->n, f, 24) : load(h);
    default:
        return stop(h->n, f, 23);
    }
}

uint32_t mastfrap_act(uint32_t numbers[3], uint8_t bytes[268], uint8_t *room, mastfrap_size room_len, uint8_t *ram,
                      mastfrap_size ram_len, uint32_t *uds, mastfrap_size uds_len, uint32_t *reply_len, uint32_t start[2],
                      uint8_t cdi[32], uint8_t digest[32])
{
    struct head h = {(struct numbers *)numbers, (struct frame *)bytes, room, ram, uds, reply_len, start, cdi, digest};
    uint32_t refused = state_refusal(h.n, h.f, 1);

    if (refused != 0)
        return refused;
    if (room_len < 129)
        return 3;
    if (ram_len != h.n->ram_len)
        return 4;
    if (uds_len != 8)
        return 5;
    *reply_len = 0;
    nothing_started(start, cdi, digest);
    return perform(&h);
}
