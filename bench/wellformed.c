// Times the two well-formedness tests: `time STATE` prints the best ns a call of ours and of the plain one, their rounds taken in turn;
// `run STATE WHICH N` makes N calls. WHICH is ours or plain; STATE is fresh8, fresh1024, full8 or full1024.
#include <stdio.h>
#include <stdlib.h>
#include <string.h>
#include <time.h>
#include "wellformed.h"

static void fresh(struct state *s, size_t pages)
{
    memset(s, 0, sizeof *s);
    s->pages = pages;
    s->kept = 1;
    s->owner[pages - 1] = 255;
}

// A slot of that many runs, all of them code but the last, which is the param page; eight entries.
static void slot(struct state *s, size_t k, size_t first, size_t runs, size_t pages)
{
    struct fields *f = &s->slots[k].card.fields;
    s->slots[k].card.registered = true;
    f->r = runs;
    f->e = 8;
    size_t page = first, each = (pages - 1) / (runs - 1);
    for (size_t i = 0; i < runs; i++) {
        size_t count = i + 1 < runs ? each : 1;
        f->runs[i] = (struct run){.kind = i + 1 < runs ? 1 : 4, .count = count, .first = page};
        memset(s->owner + page, k + 1, count);
        page += count;
    }
    for (size_t i = 0; i < 8; i++)
        f->entries[i] = (struct entry){.address = first * 4096 + i * 16, .input = 4, .output = 4};
    memset(s->slots[k].pcrs, 7, sizeof s->slots[k].pcrs);
}

static void build(struct state *s, const char *name)
{
    size_t pages = strstr(name, "1024") ? 1024 : 8;
    fresh(s, pages);
    if (strncmp(name, "full", 4) == 0)
        for (size_t k = 0; k < (pages == 8 ? 3 : 8); k++)
            pages == 8 ? slot(s, k, 2 * k, 2, 2) : slot(s, k, 64 * k, 4, 64);
}

typedef bool test_fn(struct state, size_t);

static bool answers_right(test_fn *test, struct state *s, size_t length)
{
    bool right = test(*s, length) && !test(*s, length + 1);
    s->owner[1023] ^= 1;
    right &= !test(*s, length);
    s->owner[1023] ^= 1;
    return right;
}

static double round_of(test_fn *test, const struct state *s, size_t length, size_t n)
{
    struct timespec a, b;
    size_t right = 0;
    clock_gettime(CLOCK_MONOTONIC, &a);
    for (size_t i = 0; i < n; i++)
        right += test(*s, length);
    clock_gettime(CLOCK_MONOTONIC, &b);
    return right == n ? ((b.tv_sec - a.tv_sec) * 1e9 + (b.tv_nsec - a.tv_nsec)) / n : 1e18;
}

int main(int argc, char **argv)
{
    static struct state s;
    static test_fn *const tests[2] = {guddaroox_well_formed, plain_well_formed};
    if (argc < 3)
        return 2;
    bool time = strcmp(argv[1], "time") == 0;
    build(&s, argv[2]);
    size_t length = s.pages * 4096;
    if (!answers_right(tests[0], &s, length) || !answers_right(tests[1], &s, length)) {
        fprintf(stderr, "wrong answer\n");
        return 1;
    }
    if (!time) {
        round_of(tests[argc > 3 && strcmp(argv[3], "plain") == 0], &s, length, argc > 4 ? strtoul(argv[4], NULL, 10) : 1);
        return 0;
    }
    double best[2] = {1e18, 1e18};
    for (int round = 0; round < 2000; round++) {
        double ns = round_of(tests[round % 2], &s, length, 500);
        if (ns < best[round % 2])
            best[round % 2] = ns;
    }
    printf("%.1f %.1f\n", best[0], best[1]);
    return 0;
}
