/* Tells the SHA-256 of a file of the disk, as `sha256sum` does. */

#include <fcntl.h>
#include <stdint.h>
#include <stdio.h>
#include <string.h>
#include <unistd.h>

static const uint32_t constants[64] = {
    0x428a2f98, 0x71374491, 0xb5c0fbcf, 0xe9b5dba5, 0x3956c25b, 0x59f111f1, 0x923f82a4, 0xab1c5ed5,
    0xd807aa98, 0x12835b01, 0x243185be, 0x550c7dc3, 0x72be5d74, 0x80deb1fe, 0x9bdc06a7, 0xc19bf174,
    0xe49b69c1, 0xefbe4786, 0x0fc19dc6, 0x240ca1cc, 0x2de92c6f, 0x4a7484aa, 0x5cb0a9dc, 0x76f988da,
    0x983e5152, 0xa831c66d, 0xb00327c8, 0xbf597fc7, 0xc6e00bf3, 0xd5a79147, 0x06ca6351, 0x14292967,
    0x27b70a85, 0x2e1b2138, 0x4d2c6dfc, 0x53380d13, 0x650a7354, 0x766a0abb, 0x81c2c92e, 0x92722c85,
    0xa2bfe8a1, 0xa81a664b, 0xc24b8b70, 0xc76c51a3, 0xd192e819, 0xd6990624, 0xf40e3585, 0x106aa070,
    0x19a4c116, 0x1e376c08, 0x2748774c, 0x34b0bcb5, 0x391c0cb3, 0x4ed8aa4a, 0x5b9cca4f, 0x682e6ff3,
    0x748f82ee, 0x78a5636f, 0x84c87814, 0x8cc70208, 0x90befffa, 0xa4506ceb, 0xbef9a3f7, 0xc67178f2,
};

static uint32_t state[8] = {
    0x6a09e667, 0xbb67ae85, 0x3c6ef372, 0xa54ff53a, 0x510e527f, 0x9b05688c, 0x1f83d9ab, 0x5be0cd19,
};

static uint32_t rotated(uint32_t word, int bits)
{
    return word >> bits | word << (32 - bits);
}

/* Takes in a block of 64 bytes. The eight words take turns: what was a is b in the next round, and so on. */
static void add_block(const uint8_t *block)
{
    uint32_t w[64], a = state[0], b = state[1], c = state[2], d = state[3];
    uint32_t e = state[4], f = state[5], g = state[6], h = state[7];
    for (int i = 0; i < 16; i++)
        w[i] = (uint32_t)block[4 * i] << 24 | block[4 * i + 1] << 16 | block[4 * i + 2] << 8 | block[4 * i + 3];
    for (int i = 16; i < 64; i++) {
        uint32_t x = w[i - 15], y = w[i - 2];
        x = rotated(x, 7) ^ rotated(x, 18) ^ x >> 3;
        y = rotated(y, 17) ^ rotated(y, 19) ^ y >> 10;
        w[i] = w[i - 16] + x + w[i - 7] + y;
    }
    for (int i = 0; i < 64; i++) {
        uint32_t first = h + ((e & f) ^ (~e & g)) + constants[i] + w[i];
        uint32_t second = (a & b) ^ (a & c) ^ (b & c);
        first += rotated(e, 6) ^ rotated(e, 11) ^ rotated(e, 25);
        second += rotated(a, 2) ^ rotated(a, 13) ^ rotated(a, 22);
        h = g, g = f, f = e, e = d + first;
        d = c, c = b, b = a, a = first + second;
    }
    state[0] += a, state[1] += b, state[2] += c, state[3] += d;
    state[4] += e, state[5] += f, state[6] += g, state[7] += h;
}

/* Fills a block from the file, and returns how many bytes it has: fewer than 64 at the end. */
static unsigned fill(int descriptor, uint8_t *block)
{
    unsigned filled = 0;
    while (filled < 64) {
        int count = read(descriptor, block + filled, 64 - filled);
        if (count <= 0)
            break;
        filled += count;
    }
    return filled;
}

int main(void)
{
    int descriptor = open("numbers", O_RDONLY);
    if (descriptor < 0) {
        printf("hash: there is no such file\n");
        return 1;
    }
    uint8_t block[64];
    unsigned length = 0, count;
    while ((count = fill(descriptor, block)) >= 64) {
        add_block(block);
        length += 64;
    }
    length += count;
    block[count++] = 0x80;
    memset(block + count, 0, 64 - count);
    if (count > 56) {
        add_block(block);
        memset(block, 0, 64);
    }
    for (int i = 0; i < 4; i++)
        block[63 - i] = length * 8 >> 8 * i;
    add_block(block);

    char text[65] = "";
    for (int i = 0; i < 64; i++)
        text[i] = "0123456789abcdef"[state[i / 8] >> (28 - 4 * (i % 8)) & 15];
    printf("hash: %u bytes have %s\n", length, text);
    return 0;
}
