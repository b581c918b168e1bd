/* SHA-1 by FIPS 180-4, for the example's ids: the id of a Git object is the hash of "kind length NUL" and its bytes. */
#ifndef SHA1_H
#define SHA1_H

#include <stdint.h>
#include <stdio.h>
#include <string.h>

static inline uint32_t sha1_rotate(uint32_t x, int n) { return x << n | x >> (32 - n); }

static inline void sha1_block(uint32_t h[5], const uint8_t *block) {
    uint32_t w[80], a = h[0], b = h[1], c = h[2], d = h[3], e = h[4];
    for (int i = 0; i < 16; i++)
        w[i] =
            (uint32_t)block[4 * i] << 24 | (uint32_t)block[4 * i + 1] << 16 | (uint32_t)block[4 * i + 2] << 8 | block[4 * i + 3];
    for (int i = 16; i < 80; i++) w[i] = sha1_rotate(w[i - 3] ^ w[i - 8] ^ w[i - 14] ^ w[i - 16], 1);
    for (int i = 0; i < 80; i++) {
        uint32_t f = i < 20   ? ((b & c) | (~b & d)) + 0x5a827999
                     : i < 40 ? (b ^ c ^ d) + 0x6ed9eba1
                     : i < 60 ? ((b & c) | (b & d) | (c & d)) + 0x8f1bbcdc
                              : (b ^ c ^ d) + 0xca62c1d6;
        uint32_t t = sha1_rotate(a, 5) + f + e + w[i];
        e = d, d = c, c = sha1_rotate(b, 30), b = a, a = t;
    }
    h[0] += a, h[1] += b, h[2] += c, h[3] += d, h[4] += e;
}

/* The id that Git gives to an object of this kind ("blob", "tree") with these bytes. */
static inline void git_id(uint8_t id[20], const char *kind, const void *bytes, size_t len) {
    uint32_t h[5] = {0x67452301, 0xefcdab89, 0x98badcfe, 0x10325476, 0xc3d2e1f0};
    uint8_t block[64];
    size_t used = (size_t)sprintf((char *)block, "%s %zu", kind, len) + 1, all = used + len;
    for (size_t i = 0; i < len; i++) {
        block[used++] = ((const uint8_t *)bytes)[i];
        if (used == 64) sha1_block(h, block), used = 0;
    }
    block[used++] = 0x80;
    if (used > 56) {
        memset(block + used, 0, 64 - used);
        sha1_block(h, block), used = 0;
    }
    memset(block + used, 0, 56 - used);
    for (int i = 0; i < 8; i++) block[56 + i] = (uint8_t)((uint64_t)all * 8 >> (56 - 8 * i));
    sha1_block(h, block);
    for (int i = 0; i < 20; i++) id[i] = (uint8_t)(h[i / 4] >> (24 - 8 * (i % 4)));
}

#endif
