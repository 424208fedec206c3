/*
 * BLAKE2s after RFC 7693 in plain C, one call: the peer that the proved library is measured against.
 * It takes whole blocks straight from the message, which is quicker than the byte-by-byte update of
 * the RFC's appendix D.
 */
#include <stddef.h>
#include <stdint.h>
#include <string.h>

static const uint32_t iv[8] = {
    0x6A09E667, 0xBB67AE85, 0x3C6EF372, 0xA54FF53A, 0x510E527F, 0x9B05688C, 0x1F83D9AB, 0x5BE0CD19,
};

#define ROTR32(x, y) (((x) >> (y)) ^ ((x) << (32 - (y))))

#define GET32(p)                                                                                   \
    (((uint32_t)(p)[0]) ^ (((uint32_t)(p)[1]) << 8) ^ (((uint32_t)(p)[2]) << 16) ^                 \
     (((uint32_t)(p)[3]) << 24))

#define G(a, b, c, d, x, y)                                                                        \
    {                                                                                              \
        v[a] = v[a] + v[b] + x;                                                                    \
        v[d] = ROTR32(v[d] ^ v[a], 16);                                                            \
        v[c] = v[c] + v[d];                                                                        \
        v[b] = ROTR32(v[b] ^ v[c], 12);                                                            \
        v[a] = v[a] + v[b] + y;                                                                    \
        v[d] = ROTR32(v[d] ^ v[a], 8);                                                             \
        v[c] = v[c] + v[d];                                                                        \
        v[b] = ROTR32(v[b] ^ v[c], 7);                                                             \
    }

static void compress(uint32_t h[8], const uint8_t *b, uint64_t t, int last)
{
    static const uint8_t sigma[10][16] = {
        {0, 1, 2, 3, 4, 5, 6, 7, 8, 9, 10, 11, 12, 13, 14, 15},
        {14, 10, 4, 8, 9, 15, 13, 6, 1, 12, 0, 2, 11, 7, 5, 3},
        {11, 8, 12, 0, 5, 2, 15, 13, 10, 14, 3, 6, 7, 1, 9, 4},
        {7, 9, 3, 1, 13, 12, 11, 14, 2, 6, 5, 10, 4, 0, 15, 8},
        {9, 0, 5, 7, 2, 4, 10, 15, 14, 1, 11, 12, 6, 8, 3, 13},
        {2, 12, 6, 10, 0, 11, 8, 3, 4, 13, 7, 5, 15, 14, 1, 9},
        {12, 5, 1, 15, 14, 13, 4, 10, 0, 7, 6, 3, 9, 2, 8, 11},
        {13, 11, 7, 14, 12, 1, 3, 9, 5, 0, 15, 4, 8, 6, 2, 10},
        {6, 15, 14, 9, 11, 3, 0, 8, 12, 2, 13, 7, 1, 4, 10, 5},
        {10, 2, 8, 4, 7, 6, 1, 5, 15, 11, 9, 14, 3, 12, 13, 0},
    };
    uint32_t v[16], m[16];
    int i;

    for (i = 0; i < 8; i++) {
        v[i] = h[i];
        v[i + 8] = iv[i];
    }
    v[12] ^= (uint32_t)t;
    v[13] ^= (uint32_t)(t >> 32);
    if (last)
        v[14] = ~v[14];
    for (i = 0; i < 16; i++)
        m[i] = GET32(&b[4 * i]);
    for (i = 0; i < 10; i++) {
        const uint8_t *s = sigma[i];
        G(0, 4, 8, 12, m[s[0]], m[s[1]]);
        G(1, 5, 9, 13, m[s[2]], m[s[3]]);
        G(2, 6, 10, 14, m[s[4]], m[s[5]]);
        G(3, 7, 11, 15, m[s[6]], m[s[7]]);
        G(0, 5, 10, 15, m[s[8]], m[s[9]]);
        G(1, 6, 11, 12, m[s[10]], m[s[11]]);
        G(2, 7, 8, 13, m[s[12]], m[s[13]]);
        G(3, 4, 9, 14, m[s[14]], m[s[15]]);
    }
    for (i = 0; i < 8; i++)
        h[i] ^= v[i] ^ v[i + 8];
}

void reference_blake2s(const uint8_t *msg, size_t n, uint8_t out[32])
{
    uint32_t h[8];
    uint8_t b[64] = {0};
    uint64_t t = 0;
    int i;

    memcpy(h, iv, sizeof h);
    h[0] ^= 0x01010000 ^ 32;
    for (; n > 64; n -= 64, msg += 64)
        compress(h, msg, t += 64, 0);
    memcpy(b, msg, n);
    compress(h, b, t + n, 1);
    for (i = 0; i < 32; i++)
        out[i] = (uint8_t)(h[i >> 2] >> (8 * (i & 3)));
}
