// SHA-256 (FIPS 180-4) in portable C with its rounds unrolled: what ours is compared with.
#include "sha256.h"

#include <string.h>

static const uint32_t K[64] = {
    0x428a2f98, 0x71374491, 0xb5c0fbcf, 0xe9b5dba5, 0x3956c25b, 0x59f111f1, 0x923f82a4, 0xab1c5ed5,
    0xd807aa98, 0x12835b01, 0x243185be, 0x550c7dc3, 0x72be5d74, 0x80deb1fe, 0x9bdc06a7, 0xc19bf174,
    0xe49b69c1, 0xefbe4786, 0x0fc19dc6, 0x240ca1cc, 0x2de92c6f, 0x4a7484aa, 0x5cb0a9dc, 0x76f988da,
    0x983e5152, 0xa831c66d, 0xb00327c8, 0xbf597fc7, 0xc6e00bf3, 0xd5a79147, 0x06ca6351, 0x14292967,
    0x27b70a85, 0x2e1b2138, 0x4d2c6dfc, 0x53380d13, 0x650a7354, 0x766a0abb, 0x81c2c92e, 0x92722c85,
    0xa2bfe8a1, 0xa81a664b, 0xc24b8b70, 0xc76c51a3, 0xd192e819, 0xd6990624, 0xf40e3585, 0x106aa070,
    0x19a4c116, 0x1e376c08, 0x2748774c, 0x34b0bcb5, 0x391c0cb3, 0x4ed8aa4a, 0x5b9cca4f, 0x682e6ff3,
    0x748f82ee, 0x78a5636f, 0x84c87814, 0x8cc70208, 0x90befffa, 0xa4506ceb, 0xbef9a3f7, 0xc67178f2,
};

static inline uint32_t rotr(uint32_t x, int n) { return x >> n | x << (32 - n); }
static inline uint32_t big0(uint32_t x) { return rotr(x, 2) ^ rotr(x, 13) ^ rotr(x, 22); }
static inline uint32_t big1(uint32_t x) { return rotr(x, 6) ^ rotr(x, 11) ^ rotr(x, 25); }
static inline uint32_t small0(uint32_t x) { return rotr(x, 7) ^ rotr(x, 18) ^ x >> 3; }
static inline uint32_t small1(uint32_t x) { return rotr(x, 17) ^ rotr(x, 19) ^ x >> 10; }

// Ch and Maj with one operation less than the standard writes.
static inline uint32_t ch(uint32_t x, uint32_t y, uint32_t z) { return ((y ^ z) & x) ^ z; }
static inline uint32_t maj(uint32_t x, uint32_t y, uint32_t z) { return (x & y) | ((x | y) & z); }

static inline uint32_t load_word(const uint8_t *p) {
    return (uint32_t)p[0] << 24 | (uint32_t)p[1] << 16 | (uint32_t)p[2] << 8 | p[3];
}

static inline void store_word(uint8_t *p, uint32_t x) {
    p[0] = (uint8_t)(x >> 24);
    p[1] = (uint8_t)(x >> 16);
    p[2] = (uint8_t)(x >> 8);
    p[3] = (uint8_t)x;
}

// Word i of the schedule: one of the block's, or made over the word sixteen places before it.
#define FIRST(i) (w[i] = load_word(p + 4 * (i)))
#define LATER(i) (w[(i) % 16] += small1(w[((i) + 14) % 16]) + w[((i) + 9) % 16] + small0(w[((i) + 1) % 16]))

// One round. Two of the eight variables change; the next round takes them under other names.
#define ROUND(a, b, c, d, e, f, g, h, i, WORD)                         \
    do {                                                               \
        uint32_t t = h + big1(e) + ch(e, f, g) + K[i] + WORD(i);       \
        d += t;                                                        \
        h = t + big0(a) + maj(a, b, c);                                \
    } while (0)

// Eight rounds, after which each variable has its own name again.
#define EIGHT(i, WORD)                                   \
    ROUND(a, b, c, d, e, f, g, h, (i) + 0, WORD);        \
    ROUND(h, a, b, c, d, e, f, g, (i) + 1, WORD);        \
    ROUND(g, h, a, b, c, d, e, f, (i) + 2, WORD);        \
    ROUND(f, g, h, a, b, c, d, e, (i) + 3, WORD);        \
    ROUND(e, f, g, h, a, b, c, d, (i) + 4, WORD);        \
    ROUND(d, e, f, g, h, a, b, c, (i) + 5, WORD);        \
    ROUND(c, d, e, f, g, h, a, b, (i) + 6, WORD);        \
    ROUND(b, c, d, e, f, g, h, a, (i) + 7, WORD)

// Takes the block at p into the hash value s.
static void absorb(uint32_t s[8], const uint8_t *p) {
    uint32_t w[16];
    uint32_t a = s[0], b = s[1], c = s[2], d = s[3], e = s[4], f = s[5], g = s[6], h = s[7];
    EIGHT(0, FIRST);
    EIGHT(8, FIRST);
    EIGHT(16, LATER);
    EIGHT(24, LATER);
    EIGHT(32, LATER);
    EIGHT(40, LATER);
    EIGHT(48, LATER);
    EIGHT(56, LATER);
    s[0] += a;
    s[1] += b;
    s[2] += c;
    s[3] += d;
    s[4] += e;
    s[5] += f;
    s[6] += g;
    s[7] += h;
}

void portable_sha256(const uint8_t *m, size_t n, uint8_t out[32]) {
    uint32_t s[8] = {0x6a09e667, 0xbb67ae85, 0x3c6ef372, 0xa54ff53a, 0x510e527f, 0x9b05688c, 0x1f83d9ab, 0x5be0cd19};
    size_t at = 0;
    for (; at + 64 <= n; at += 64)
        absorb(s, m + at);

    // What is left, 0x80, zeros and the length in bits: one block, or two.
    uint8_t tail[128] = {0};
    size_t left = n - at;
    size_t end = left < 56 ? 64 : 128;
    if (left > 0)
        memcpy(tail, m + at, left);
    tail[left] = 0x80;
    store_word(tail + end - 8, (uint32_t)(n >> 29));
    store_word(tail + end - 4, (uint32_t)(n << 3));
    absorb(s, tail);
    if (end == 128)
        absorb(s, tail + 64);

    for (int i = 0; i < 8; i++)
        store_word(out + 4 * i, s[i]);
}
