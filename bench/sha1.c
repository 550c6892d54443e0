/* Times SHA-1 on 256 KiB and on 64 bytes, each function in turn in every round, so that all meet the same machine. Writes for each its name, the
   ns of its best round on 256 KiB and on 64 bytes, and both as multiples of ours. */
#define OPENSSL_SUPPRESS_DEPRECATED
#include <openssl/sha.h>
#include <stdint.h>
#include <stdio.h>
#include <string.h>
#include <time.h>

enum { ROUNDS = 300, SHORT = 64, TIMES = 500 };

struct digest { uint8_t bytes[20]; };
typedef struct digest hash(const uint8_t *, size_t);
hash sha1_hash, plain_gcc, plain_clang, five_gcc, five_clang;

static struct digest openssl(const uint8_t *p, size_t n)
{
    struct digest d;
    SHA_CTX c;
    SHA1_Init(&c);
    SHA1_Update(&c, p, n);
    SHA1_Final(d.bytes, &c);
    return d;
}

static const struct { const char *name; hash *f; } all[] = {
    { "ours", sha1_hash },    { "gcc", plain_gcc },        { "clang", plain_clang },
    { "five-gcc", five_gcc }, { "five-clang", five_clang }, { "openssl", openssl },
};
enum { ALL = sizeof all / sizeof *all };

static uint8_t data[262144];
static volatile uint8_t sink;

static double now(void)
{
    struct timespec t;
    clock_gettime(CLOCK_PROCESS_CPUTIME_ID, &t);
    return t.tv_sec * 1e9 + t.tv_nsec;
}

static void better(double *best, hash *f, size_t n, int times)
{
    double from = now();
    for (int i = 0; i < times; i++)
        sink ^= f(data, n).bytes[0];
    double took = (now() - from) / times;
    if (took < *best)
        *best = took;
}

int main(void)
{
    double whole[ALL], small[ALL];
    for (size_t i = 0; i < sizeof data; i++)
        data[i] = (uint8_t)(i * 2654435761u >> 13);
    for (int k = 0; k < ALL; k++) {
        struct digest x = all[k].f(data, sizeof data), y = openssl(data, sizeof data);
        if (memcmp(&x, &y, sizeof x))
            return 1;
        whole[k] = small[k] = 1e30;
    }
    for (int round = 0; round < ROUNDS; round++)
        for (int k = 0; k < ALL; k++) {
            better(&whole[k], all[k].f, sizeof data, 1);
            better(&small[k], all[k].f, SHORT, TIMES);
        }
    for (int k = 0; k < ALL; k++)
        printf("%s %.0f %.1f %.2f %.2f\n", all[k].name, whole[k], small[k], whole[k] / whole[0], small[k] / small[0]);
    return 0;
}
