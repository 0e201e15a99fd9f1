/* SHA-256 (FIPS 180-4) in a chain: each digest is that of the digest before it, 32 zero bytes at first, and of a
 * counter's 8 bytes, the low one first. A message has 40 bytes, so with its padding it is one block. Nearly all
 * instructions are arithmetic on registers. */

#include "print.h"

enum { DIGESTS = 128, DIGEST = 32, MESSAGE = 40, BLOCK = 64, ROUNDS = 64 };

static const uint32_t constants[ROUNDS] = {
    0x428a2f98, 0x71374491, 0xb5c0fbcf, 0xe9b5dba5, 0x3956c25b, 0x59f111f1, 0x923f82a4, 0xab1c5ed5,
    0xd807aa98, 0x12835b01, 0x243185be, 0x550c7dc3, 0x72be5d74, 0x80deb1fe, 0x9bdc06a7, 0xc19bf174,
    0xe49b69c1, 0xefbe4786, 0x0fc19dc6, 0x240ca1cc, 0x2de92c6f, 0x4a7484aa, 0x5cb0a9dc, 0x76f988da,
    0x983e5152, 0xa831c66d, 0xb00327c8, 0xbf597fc7, 0xc6e00bf3, 0xd5a79147, 0x06ca6351, 0x14292967,
    0x27b70a85, 0x2e1b2138, 0x4d2c6dfc, 0x53380d13, 0x650a7354, 0x766a0abb, 0x81c2c92e, 0x92722c85,
    0xa2bfe8a1, 0xa81a664b, 0xc24b8b70, 0xc76c51a3, 0xd192e819, 0xd6990624, 0xf40e3585, 0x106aa070,
    0x19a4c116, 0x1e376c08, 0x2748774c, 0x34b0bcb5, 0x391c0cb3, 0x4ed8aa4a, 0x5b9cca4f, 0x682e6ff3,
    0x748f82ee, 0x78a5636f, 0x84c87814, 0x8cc70208, 0x90befffa, 0xa4506ceb, 0xbef9a3f7, 0xc67178f2,
};

static const uint32_t start[8] = {
    0x6a09e667, 0xbb67ae85, 0x3c6ef372, 0xa54ff53a, 0x510e527f, 0x9b05688c, 0x1f83d9ab, 0x5be0cd19,
};

static uint32_t rotated(uint32_t word, unsigned by) { return word >> by | word << (32 - by); }

/* The digest of a message of one block, which has its padding. */
static void hash(unsigned char digest[DIGEST], const unsigned char block[BLOCK]) {
    uint32_t w[ROUNDS];
    for (unsigned i = 0; i < 16; i++)
        w[i] = (uint32_t)block[4 * i] << 24 | block[4 * i + 1] << 16 | block[4 * i + 2] << 8 | block[4 * i + 3];
    for (unsigned i = 16; i < ROUNDS; i++) {
        uint32_t early = w[i - 15], late = w[i - 2];
        w[i] = w[i - 16] + (rotated(early, 7) ^ rotated(early, 18) ^ early >> 3) + w[i - 7] +
               (rotated(late, 17) ^ rotated(late, 19) ^ late >> 10);
    }
    uint32_t a = start[0], b = start[1], c = start[2], d = start[3];
    uint32_t e = start[4], f = start[5], g = start[6], h = start[7];
    for (unsigned i = 0; i < ROUNDS; i++) {
        uint32_t first = h + (rotated(e, 6) ^ rotated(e, 11) ^ rotated(e, 25)) + ((e & f) ^ (~e & g)) +
                         constants[i] + w[i];
        uint32_t second = (rotated(a, 2) ^ rotated(a, 13) ^ rotated(a, 22)) + ((a & b) ^ (a & c) ^ (b & c));
        h = g, g = f, f = e, e = d + first;
        d = c, c = b, b = a, a = first + second;
    }
    const uint32_t ends[] = {a, b, c, d, e, f, g, h};
    for (unsigned i = 0; i < DIGEST; i++)
        digest[i] = (unsigned char)((start[i / 4] + ends[i / 4]) >> (24 - i % 4 * 8));
}

int main(void) {
    unsigned char digest[DIGEST] = {0};
    for (unsigned long counter = 0; counter < DIGESTS; counter++) {
        unsigned char block[BLOCK] = {0};
        for (unsigned i = 0; i < DIGEST; i++)
            block[i] = digest[i];
        for (unsigned i = 0; i < 8; i++)
            block[DIGEST + i] = (unsigned char)(counter >> (8 * i));
        block[MESSAGE] = 0x80;
        block[BLOCK - 2] = MESSAGE * 8 >> 8;
        block[BLOCK - 1] = MESSAGE * 8 & 255;
        hash(digest, block);
    }
    struct line line = {.length = 0};
    for (unsigned i = 0; i < 2 * DIGEST; i++)
        add_character(&line, "0123456789abcdef"[digest[i / 2] >> (4 - i % 2 * 4) & 15]);
    print_line(&line);
    return 0;
}
