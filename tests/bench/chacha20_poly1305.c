/*
 * Module files sealed and opened in plain C, a yardstick of the benchmark: RFC 8439 as it stands, block by block, with Poly1305 in five
 * limbs of 26 bits. The label's key is made from its secret by one HMAC; there is no policy and no envelope.
 */
#include <stddef.h>
#include <stdint.h>
#include <string.h>

void c_hmac_sha256(const uint8_t *key, size_t key_length, const uint8_t *message, size_t length, uint8_t digest[32]);

static uint32_t word(const uint8_t *p) { return p[0] | (uint32_t)p[1] << 8 | (uint32_t)p[2] << 16 | (uint32_t)p[3] << 24; }

static void put_word(uint8_t *p, uint32_t x)
{
    p[0] = (uint8_t)x, p[1] = (uint8_t)(x >> 8), p[2] = (uint8_t)(x >> 16), p[3] = (uint8_t)(x >> 24);
}

static uint32_t rotl(uint32_t x, int n) { return x << n | x >> (32 - n); }

#define QUARTER(a, b, c, d) \
    a += b, d = rotl(d ^ a, 16), c += d, b = rotl(b ^ c, 12), a += b, d = rotl(d ^ a, 8), c += d, b = rotl(b ^ c, 7)

static void start(uint32_t s[16], const uint8_t key[32], const uint8_t nonce[12])
{
    s[0] = 0x61707865, s[1] = 0x3320646e, s[2] = 0x79622d32, s[3] = 0x6b206574, s[12] = 0;
    for (int i = 0; i < 8; i++) s[4 + i] = word(key + 4 * i);
    for (int i = 0; i < 3; i++) s[13 + i] = word(nonce + 4 * i);
}

static void block(const uint32_t s[16], uint8_t out[64])
{
    uint32_t x[16];
    memcpy(x, s, sizeof x);
    for (int i = 0; i < 10; i++) {
        QUARTER(x[0], x[4], x[8], x[12]);
        QUARTER(x[1], x[5], x[9], x[13]);
        QUARTER(x[2], x[6], x[10], x[14]);
        QUARTER(x[3], x[7], x[11], x[15]);
        QUARTER(x[0], x[5], x[10], x[15]);
        QUARTER(x[1], x[6], x[11], x[12]);
        QUARTER(x[2], x[7], x[8], x[13]);
        QUARTER(x[3], x[4], x[9], x[14]);
    }
    for (int i = 0; i < 16; i++) put_word(out + 4 * i, x[i] + s[i]);
}

static void encrypt(uint32_t s[16], const uint8_t *text, size_t length, uint8_t *out)
{
    uint8_t stream[64];
    for (size_t at = 0; at < length; at += 64) {
        size_t n = length - at < 64 ? length - at : 64;
        s[12]++;
        block(s, stream);
        for (size_t i = 0; i < n; i++) out[at + i] = text[at + i] ^ stream[i];
    }
}

typedef struct {
    uint32_t r[5], h[5];
} poly;

static void absorb(poly *p, const uint8_t *m, size_t blocks)
{
    uint32_t r0 = p->r[0], r1 = p->r[1], r2 = p->r[2], r3 = p->r[3], r4 = p->r[4];
    uint32_t s1 = r1 * 5, s2 = r2 * 5, s3 = r3 * 5, s4 = r4 * 5;
    uint32_t h0 = p->h[0], h1 = p->h[1], h2 = p->h[2], h3 = p->h[3], h4 = p->h[4];
    for (; blocks > 0; blocks--, m += 16) {
        h0 += word(m) & 0x3ffffff;
        h1 += word(m + 3) >> 2 & 0x3ffffff;
        h2 += word(m + 6) >> 4 & 0x3ffffff;
        h3 += word(m + 9) >> 6 & 0x3ffffff;
        h4 += word(m + 12) >> 8 | 1 << 24;
        uint64_t d0 = (uint64_t)h0 * r0 + (uint64_t)h1 * s4 + (uint64_t)h2 * s3 + (uint64_t)h3 * s2 + (uint64_t)h4 * s1;
        uint64_t d1 = (uint64_t)h0 * r1 + (uint64_t)h1 * r0 + (uint64_t)h2 * s4 + (uint64_t)h3 * s3 + (uint64_t)h4 * s2;
        uint64_t d2 = (uint64_t)h0 * r2 + (uint64_t)h1 * r1 + (uint64_t)h2 * r0 + (uint64_t)h3 * s4 + (uint64_t)h4 * s3;
        uint64_t d3 = (uint64_t)h0 * r3 + (uint64_t)h1 * r2 + (uint64_t)h2 * r1 + (uint64_t)h3 * r0 + (uint64_t)h4 * s4;
        uint64_t d4 = (uint64_t)h0 * r4 + (uint64_t)h1 * r3 + (uint64_t)h2 * r2 + (uint64_t)h3 * r1 + (uint64_t)h4 * r0;
        d1 += d0 >> 26, h0 = d0 & 0x3ffffff;
        d2 += d1 >> 26, h1 = d1 & 0x3ffffff;
        d3 += d2 >> 26, h2 = d2 & 0x3ffffff;
        d4 += d3 >> 26, h3 = d3 & 0x3ffffff;
        h0 += (uint32_t)(d4 >> 26) * 5, h4 = d4 & 0x3ffffff;
        h1 += h0 >> 26, h0 &= 0x3ffffff;
    }
    p->h[0] = h0, p->h[1] = h1, p->h[2] = h2, p->h[3] = h3, p->h[4] = h4;
}

static void absorb_padded(poly *p, const uint8_t *m, size_t length)
{
    uint8_t last[16] = {0};
    absorb(p, m, length / 16);
    if (length % 16 == 0) return;
    memcpy(last, m + length / 16 * 16, length % 16);
    absorb(p, last, 1);
}

static void finish(const poly *p, const uint8_t s[16], uint8_t tag[16])
{
    uint32_t h[5], g[5], c = 0;
    memcpy(h, p->h, sizeof h);
    for (int i = 1; i < 5; i++) h[i] += h[i - 1] >> 26, h[i - 1] &= 0x3ffffff;
    h[0] += (h[4] >> 26) * 5, h[4] &= 0x3ffffff;
    h[1] += h[0] >> 26, h[0] &= 0x3ffffff;
    c = 5;
    for (int i = 0; i < 5; i++) g[i] = h[i] + c, c = g[i] >> 26, g[i] &= 0x3ffffff;
    uint32_t mask = 0 - c;
    for (int i = 0; i < 5; i++) h[i] = (h[i] & ~mask) | (g[i] & mask);
    uint32_t w[4] = {h[0] | h[1] << 26, h[1] >> 6 | h[2] << 20, h[2] >> 12 | h[3] << 14, h[3] >> 18 | h[4] << 8};
    uint64_t sum = 0;
    for (int i = 0; i < 4; i++) {
        sum += (uint64_t)w[i] + word(s + 4 * i);
        put_word(tag + 4 * i, (uint32_t)sum);
        sum >>= 32;
    }
}

/* The tag of 10 bytes of additional data and a ciphertext, where s is the state with the counter 0. */
static void tag_of(const uint32_t s[16], const uint8_t *aad, const uint8_t *ciphertext, size_t length, uint8_t tag[16])
{
    uint8_t once[64], lengths[16] = {10};
    block(s, once);
    poly p = {{word(once) & 0x3ffffff, word(once + 3) >> 2 & 0x3ffff03, word(once + 6) >> 4 & 0x3ffc0ff,
               word(once + 9) >> 6 & 0x3f03fff, word(once + 12) >> 8 & 0x00fffff}, {0}};
    absorb_padded(&p, aad, 10);
    absorb_padded(&p, ciphertext, length);
    for (int i = 0; i < 8; i++) lengths[8 + i] = (uint8_t)((uint64_t)length >> 8 * i);
    absorb(&p, lengths, 1);
    finish(&p, once + 16, tag);
}

void c_seal(const uint8_t secret[32], const uint8_t name[8], const uint8_t nonce[12], const uint8_t *text, size_t length, uint8_t *out)
{
    uint8_t key[32];
    uint32_t s[16], first[16];
    c_hmac_sha256(secret, 32, name, 8, key);
    start(s, key, nonce);
    memcpy(first, s, sizeof s);
    memcpy(out, "SM", 2);
    memcpy(out + 2, name, 8);
    memcpy(out + 10, nonce, 12);
    encrypt(s, text, length, out + 22);
    tag_of(first, out, out + 22, length, out + 22 + length);
}

/* 1 if the tag is right; no byte is written otherwise. */
int c_open(const uint8_t secret[32], const uint8_t *file, size_t file_length, uint8_t *out)
{
    uint8_t key[32], tag[16], differ = 0;
    uint32_t s[16];
    size_t length = file_length - 38;
    c_hmac_sha256(secret, 32, file + 2, 8, key);
    start(s, key, file + 10);
    tag_of(s, file, file + 22, length, tag);
    for (int i = 0; i < 16; i++) differ |= tag[i] ^ file[22 + length + i];
    if (differ != 0) return 0;
    encrypt(s, file + 22, length, out);
    return 1;
}
