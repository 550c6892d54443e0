/* What the two plain C hashes have alike: the schedule's words of a block, and the hash of a message by `block`, under the name NAME. */
#include <stddef.h>
#include <stdint.h>
#include <string.h>

struct digest { uint8_t bytes[20]; };

static uint32_t rotl(uint32_t x, int n) { return x << n | x >> (32 - n); }

static inline void schedule(uint32_t w[80], const uint8_t *p)
{
    for (int t = 0; t < 16; t++)
        w[t] = (uint32_t)p[4 * t] << 24 | (uint32_t)p[4 * t + 1] << 16 | (uint32_t)p[4 * t + 2] << 8 | p[4 * t + 3];
    for (int t = 16; t < 80; t++)
        w[t] = rotl(w[t - 3] ^ w[t - 8] ^ w[t - 14] ^ w[t - 16], 1);
}

static void block(uint32_t h[5], const uint8_t *p);

struct digest NAME(const uint8_t *p, size_t n)
{
    uint32_t h[5] = { 0x67452301, 0xefcdab89, 0x98badcfe, 0x10325476, 0xc3d2e1f0 };
    size_t whole = n / 64 * 64, left = n - whole, end = left < 56 ? 64 : 128;
    for (size_t i = 0; i < whole; i += 64)
        block(h, p + i);
    uint8_t tail[128] = { 0 };
    memcpy(tail, p + whole, left);
    tail[left] = 0x80;
    for (int i = 0; i < 8; i++)
        tail[end - 1 - i] = (uint8_t)((uint64_t)n * 8 >> (8 * i));
    for (size_t i = 0; i < end; i += 64)
        block(h, tail + i);
    struct digest d;
    for (int i = 0; i < 20; i++)
        d.bytes[i] = (uint8_t)(h[i / 4] >> (24 - 8 * (i % 4)));
    return d;
}
