/* SHA-1 in plain portable C, eighty words, a loop for each twenty rounds as in ours: what ours is measured against.
   Built once by gcc and once by clang, under the name NAME. */
#include "sha1_whole.h"

static void turn(uint32_t v[5], uint32_t f, uint32_t k, uint32_t w)
{
    uint32_t x = rotl(v[0], 5) + f + v[4] + k + w;
    v[4] = v[3];
    v[3] = v[2];
    v[2] = rotl(v[1], 30);
    v[1] = v[0];
    v[0] = x;
}

static void block(uint32_t h[5], const uint8_t *p)
{
    uint32_t w[80];
    schedule(w, p);
    uint32_t v[5];
    memcpy(v, h, sizeof v);
    int t = 0;
    for (; t < 20; t++)
        turn(v, (v[1] & v[2]) ^ (~v[1] & v[3]), 0x5a827999, w[t]);
    for (; t < 40; t++)
        turn(v, v[1] ^ v[2] ^ v[3], 0x6ed9eba1, w[t]);
    for (; t < 60; t++)
        turn(v, (v[1] & v[2]) ^ (v[1] & v[3]) ^ (v[2] & v[3]), 0x8f1bbcdc, w[t]);
    for (; t < 80; t++)
        turn(v, v[1] ^ v[2] ^ v[3], 0xca62c1d6, w[t]);
    for (int i = 0; i < 5; i++)
        h[i] += v[i];
}
