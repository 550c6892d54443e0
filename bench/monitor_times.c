/* The proved monitor beside the plain C one, in one program: first that they agree, then times, ratios and stack.
   The proved one is called as C calls it, over a lent state: host/monitor.h, whose layout monitor_c.h repeats. */
#include "monitor_c.h"
#include <stdio.h>
#include <stdlib.h>
#include <string.h>
#include <time.h>
#include <ucontext.h>

struct digest { uint8_t bytes[PLAIN_DIGEST]; };

#ifdef ALONE /* the C monitor against itself: a test of this program */
#define proved plain_event
struct digest plain_sha1(const uint8_t *part, size_t n);
#define proved_hash plain_sha1
#else
#include "../host/monitor.h"
#define LIKE(plain, theirs) _Static_assert(sizeof(struct plain) == sizeof(struct theirs), #plain " is laid out like " #theirs)
#define PLACE(field) _Static_assert(offsetof(struct plain_state, field) == offsetof(struct monitor, field), #field " stands at its place")
LIKE(plain_state, monitor);
LIKE(plain_slot, monitor_slot);
LIKE(plain_fields, monitor_fields);
LIKE(plain_request, monitor_request);
LIKE(plain_reply, monitor_reply);
PLACE(owner);
PLACE(slots);
PLACE(slots[0].pcrs);
PLACE(slots[0].card.fields.runs);
PLACE(slots[0].card.fields.entries);
PLACE(mode);
PLACE(running);
struct digest sha1_hash(const uint8_t *part, size_t n);
#define proved_hash sha1_hash
static struct plain_reply proved(struct plain_state *s, const struct plain_request *q, struct plain_bytes payload, uint8_t *memory, size_t size, uint8_t *buffer, size_t room)
{
    struct monitor_reply r = monitor_event((struct monitor *)s, *(const struct monitor_request *)q, payload.at, payload.n, memory, size, buffer, room);
    return (struct plain_reply){ r.number, r.kind, r.value };
}
#endif
struct digest plain_sha1(const uint8_t *part, size_t n);

/* The same C, with the state handed over and given back by value, as the proved monitor has it inside. */
struct plain_stepped { struct plain_state state; struct plain_reply reply; };
__attribute__((noinline)) static struct plain_stepped plain_step(struct plain_state s, const struct plain_request *q, struct plain_bytes payload, uint8_t *memory, size_t size, uint8_t *buffer, size_t room)
{
    struct plain_reply r = plain_event(&s, q, payload, memory, size, buffer, room);
    return (struct plain_stepped){ s, r };
}
static struct plain_reply by_value(struct plain_state *s, const struct plain_request *q, struct plain_bytes payload, uint8_t *memory, size_t size, uint8_t *buffer, size_t room)
{
    struct plain_stepped r = plain_step(*s, q, payload, memory, size, buffer, room);
    *s = r.state;
    return r.reply;
}

typedef struct plain_reply event(struct plain_state *, const struct plain_request *, struct plain_bytes, uint8_t *, size_t, uint8_t *, size_t);

enum { ROOM = PLAIN_PAGE, COPIES = 8, ROUNDS = 60 };
static uint8_t memory[PLAIN_PAGES * PLAIN_PAGE], other[PLAIN_PAGES * PLAIN_PAGE], buffer[ROOM], other_buffer[ROOM];
static uint8_t payload[2 * PLAIN_PAGE];

static void stop(const char *why)
{
    printf("FAILED: %s\n", why);
    exit(1);
}

/* ---- manifests */

static void put16(uint8_t *p, size_t x) { p[0] = (uint8_t)x, p[1] = (uint8_t)(x >> 8); }
static void put32(uint8_t *p, size_t x) { put16(p, x), put16(p + 2, x >> 16); }

/* A codeblock of so many pages from `first` on: code and param, with data and stack where it has four pages or more, and
   eight entries, the first without input and output, the second with 2,048 bytes of each. */
static struct plain_fields block_at(size_t first, size_t pages)
{
    struct plain_fields f = { .r = pages < 4 ? 2 : 4, .e = PLAIN_ENTRIES };
    const size_t small[] = { pages - 1, 1 }, large[] = { pages - 2 - pages / 4, pages / 4, 1, 1 }, *counts = f.r == 2 ? small : large;
    for (size_t i = 0; i < f.r; first += counts[i++])
        f.runs[i] = (struct plain_run){ (uint8_t)(i + 1 == f.r ? 4 : i + 1), (uint16_t)counts[i], (uint32_t)first };
    for (size_t i = 0; i < f.e; i++) {
        uint16_t length = i == 0 ? 0 : i == 1 ? 2048 : 64;
        f.entries[i] = (struct plain_entry){ (uint32_t)(f.runs[0].first * PLAIN_PAGE + 16 * i), length, length };
    }
    return f;
}

static struct plain_bytes manifest(uint8_t *to, size_t first, size_t pages)
{
    struct plain_fields f = block_at(first, pages);
    uint8_t *p = to;
    for (size_t i = 0; i < f.r; i++, p += 8)
        put16(p, f.runs[i].kind), put16(p + 2, f.runs[i].count), put32(p + 4, f.runs[i].first);
    for (size_t i = 0; i < f.e; i++, p += 8)
        put32(p, f.entries[i].address), put16(p + 4, f.entries[i].input), put16(p + 6, f.entries[i].output);
    memcpy(p, "SSCB\1", 5);
    p[5] = (uint8_t)f.r, p[6] = (uint8_t)f.e, p[7] = 0;
    put32(p + 8, 8 * (f.r + f.e));
    put32(p + 12, 8 * f.e);
    return (struct plain_bytes){ to, 8 * (f.r + f.e) + 16 };
}

/* ---- both do the same */

static bool same_slot(const struct plain_slot *a, const struct plain_slot *b)
{
    const struct plain_fields *f = &a->card.fields, *g = &b->card.fields;
    for (int i = 0; i < PLAIN_RUNS; i++)
        if (f->runs[i].kind != g->runs[i].kind || f->runs[i].count != g->runs[i].count || f->runs[i].first != g->runs[i].first)
            return false;
    return a->card.registered == b->card.registered && a->card.mark == b->card.mark && f->r == g->r && f->e == g->e
        && !memcmp(f->entries, g->entries, sizeof f->entries) && !memcmp(a->pcrs, b->pcrs, sizeof a->pcrs);
}

static bool same_state(const struct plain_state *a, const struct plain_state *b)
{
    for (int k = 0; k < PLAIN_SLOTS; k++)
        if (!same_slot(&a->slots[k], &b->slots[k]))
            return false;
    return a->pages == b->pages && a->kept == b->kept && !memcmp(a->owner, b->owner, sizeof a->owner) && a->mode == b->mode
        && !memcmp(&a->running, &b->running, sizeof a->running);
}

/* The event on the state and on a copy of it, by each monitor; both memories are alike before it. */
static struct plain_reply both(struct plain_state *s, const struct plain_request *q, struct plain_bytes bytes, size_t size, size_t room)
{
    struct plain_state t = *s;
    struct plain_reply a = proved(s, q, bytes, memory, size, buffer, room), b = plain_event(&t, q, bytes, other, size, other_buffer, room);
    if (a.number != b.number || a.kind != b.kind || a.value != b.value)
        stop("the answers differ");
    if (!same_state(s, &t))
        stop("the states differ");
    if (memcmp(memory, other, size) != 0 || memcmp(buffer, other_buffer, sizeof buffer) != 0)
        stop("memory or buffer differ");
    return a;
}

static uint64_t seed = 88172645463325252u;
static size_t any(size_t n) { return seed ^= seed << 13, seed ^= seed >> 7, seed ^= seed << 17, (size_t)(seed >> 11) % n; }
static size_t one(const size_t *of, size_t n) { return of[any(n)]; }
#define ONE(...) one((size_t[]){ __VA_ARGS__ }, sizeof((size_t[]){ __VA_ARGS__ }) / sizeof(size_t))

/* One number of the state, changed; most such states are not well formed. */
static void spoil(struct plain_state *s)
{
    struct plain_slot *x = &s->slots[any(PLAIN_SLOTS)];
    struct plain_fields *f = &x->card.fields;
    switch (any(14)) {
    case 0: s->pages += ONE(1, -1); break;
    case 1: s->kept += ONE(1, -1); break;
    case 2: s->owner[any(2) ? any(PLAIN_PAGES) : any(16)] = (uint8_t)ONE(0, 1, 2, 8, 9, 255); break;
    case 3: s->mode = any(10); break;
    case 4: s->running.slot = any(9); break;
    case 5: s->running.out = ONE(0, 1, any(sizeof memory), -1); break;
    case 6: s->running.length = ONE(0, 1, 64, 2048, 4096); break;
    case 7: x->card.registered = !x->card.registered; break;
    case 8: x->card.mark = any(3); break;
    case 9: f->r = any(6); break;
    case 10: f->e = any(10); break;
    case 11: {
        struct plain_run *y = &f->runs[any(PLAIN_RUNS)];
        size_t what = any(3);
        if (what == 0) y->kind = (uint8_t)any(6);
        if (what == 1) y->count = (uint16_t)(y->count + ONE(1, -1));
        if (what == 2) y->first = (uint32_t)(y->first + ONE(1, -1));
        break;
    }
    case 12: {
        struct plain_entry *y = &f->entries[any(PLAIN_ENTRIES)];
        size_t what = any(3);
        if (what == 0) y->address = (uint32_t)(y->address + ONE(1, -1, 16, 4096));
        if (what == 1) y->input = (uint16_t)ONE(0, 1, 2048, 2049);
        if (what == 2) y->output = (uint16_t)ONE(0, 1, 2048, 2049);
        break;
    }
    case 13: x->pcrs[any(PLAIN_PCRS)][any(PLAIN_DIGEST)] ^= 1; break;
    }
}

static void agree(size_t pages, size_t kept, int turns)
{
    size_t counts[12] = { 0 }, spoilt = 0;
    uint8_t text[112];
    struct plain_state s;
    plain_start(&s, pages, kept);
    for (int i = 0; i < turns; i++) {
        size_t page = any(3) ? any(pages) : any(pages < 24 ? pages : 24), at = page * PLAIN_PAGE + ONE(0, 16, 32, 2048, 4032, 4095);
        size_t own = s.mode ? s.slots[s.mode - 1].card.fields.runs[any(4)].first * PLAIN_PAGE + ONE(0, 64, 4095) : at;
        size_t kind = any(4) ? s.mode ? ONE(4, 5, 6, 7, 8, 9, 10, 10, 11, 11) : ONE(1, 1, 2, 3, 3, 3, 5, 6, 7, 8, 9) : 1 + any(11);
        struct plain_request q = { .kind = kind, .mark = any(8) ? 7 : 8, .slot = any(2) ? any(9) : 0, .address = any(3) ? own : at, .length = ONE(0, 1, 20, 64, 2048, 4096, 4097),
                                   .input = at, .output = any(pages) * PLAIN_PAGE + ONE(0, 100, 2048), .index = any(9), .source = 1 + any(2) };
        struct plain_bytes bytes = { payload, ONE(0, 1, 64, 4096, 4097) };
        if (q.kind == PLAIN_REGISTER) {
            bytes = manifest(text, page, pages < 64 ? ONE(2, 2, 3, 4, 5) : ONE(2, 3, 4, 16, 64));
            if (any(8) == 0)
                text[any(bytes.n)] ^= (uint8_t)(1 << any(8));
        }
        if (q.kind == PLAIN_CALL && any(8))
            q.address = s.slots[any(2) ? any(8) : 0].card.fields.entries[any(3)].address;
        size_t size = any(50) ? pages * PLAIN_PAGE : pages * PLAIN_PAGE - 1, room = ONE(0, 19, 20, 63, 64, ROOM, ROOM, ROOM);
        if (any(3) == 0) {
            struct plain_state bad = s;
            spoil(&bad);
            uint8_t number = 1;
            if (bad.pages == pages)
                number = both(&bad, &q, bytes, size, room).number;
            else if (proved(&bad, &q, bytes, memory, size, buffer, room).number != 1 || plain_event(&bad, &q, bytes, other, size, other_buffer, room).number != 1)
                stop("a state of another size is not refused");
            spoilt += number == 1;
            if (number != 1)
                memcpy(&s, &bad, sizeof s); /* it was well formed, and goes on */
            continue;
        }
        counts[both(&s, &q, bytes, size, room).number]++;
    }
    if (memcmp(memory, other, sizeof memory) != 0)
        stop("bytes beyond the memory lent differ");
    printf("P=%zu, M=%zu: %d random events, the same answers, states, memory and buffers: %zu accepted, refused", pages, kept, turns, counts[0]);
    for (int i = 1; i < 11; i++)
        printf("%s %d: %zu", i == 1 ? "" : ",", i, counts[i]);
    printf("; %zu of them on spoilt states refused\n", spoilt);
}

/* ---- times */

struct work { struct plain_state base; struct plain_request q[2]; int events; struct plain_bytes bytes; bool changes; };
static struct plain_state states[COPIES];

static double now(void)
{
    struct timespec t;
    clock_gettime(CLOCK_MONOTONIC, &t);
    return (double)t.tv_sec * 1e9 + (double)t.tv_nsec;
}

/* Events that change the state for good take a fresh copy each, made before the clock starts. */
__attribute__((noinline)) static double once(event *f, const struct work *w, int times)
{
    size_t size = w->base.pages * PLAIN_PAGE;
    uint8_t bad = 0;
    for (int i = 0; i < COPIES; i++)
        states[i] = w->base;
    double from = now();
    for (int i = 0; i < times; i++)
        for (int j = 0; j < w->events; j++)
            bad |= f(&states[w->changes ? i : 0], &w->q[j], w->bytes, memory, size, buffer, ROOM).number;
    double took = (now() - from) / times;
    if (bad)
        stop("an event that is timed is refused");
    return took;
}

static double best_of(event *f, const struct work *w, int times, double best)
{
    double t = once(f, w, times);
    return t < best ? t : best;
}

/* `count ROW MONITOR N` does the row's events N times and nothing else, for a count of instructions. */
static int row, wanted = -1, turns_wanted;
static event *counted;

static double compare(const char *name, const struct work *w, int slots, int times, const char *published)
{
    if (row++ != wanted && counted)
        return 0;
    if (counted) {
        once(counted, w, turns_wanted);
        exit(0);
    }
    struct plain_state s = w->base;
    for (int j = 0; j < w->events; j++)
        if (both(&s, &w->q[j], w->bytes, w->base.pages * PLAIN_PAGE, ROOM).number != 0)
            stop(name);
    double a = 1e18, b = 1e18, c = 1e18;
    for (int i = 0; i < ROUNDS; i++) {
        a = best_of(proved, w, times, a);
        b = best_of(plain_event, w, times, b);
        c = best_of(by_value, w, times, c);
    }
    printf("| %s | %zu | %d | %.0f | %.0f | %.2f | %.0f | %.2f | %s |\n", name, w->base.pages, slots, a, b, a / b, c, a / c, published);
    fflush(stdout);
    memcpy(other, memory, sizeof memory);
    memcpy(other_buffer, buffer, sizeof buffer);
    return a;
}

/* The state with so many codeblocks from page `first` on, under mark 7. */
static struct plain_state filled(size_t pages, size_t first, int slots, size_t each)
{
    struct plain_state s;
    plain_start(&s, pages, 1);
    for (int k = 0; k < slots; k++, first += each) {
        s.slots[k].card = (struct plain_card){ true, 7, block_at(first, each) };
        memset(s.owner + first, k + 1, each);
        memset(s.slots[k].pcrs, 17 * k + 1, sizeof s.slots[k].pcrs);
    }
    return s;
}

static void light(size_t pages, int slots, size_t each)
{
    struct work w = { .base = filled(pages, 1, slots, each), .events = 1, .bytes = { payload, 0 } };
    size_t entry = ((size_t)(slots - 1) * each + 1) * PLAIN_PAGE;
    w.q[0] = (struct plain_request){ .kind = PLAIN_READ, .address = 100, .length = 64 };
    compare("legacy read of 64 bytes", &w, slots, 400, "");
    w.events = 2;
    w.q[0] = (struct plain_request){ .kind = PLAIN_CALL, .mark = 7, .address = entry };
    w.q[1] = (struct plain_request){ .kind = PLAIN_RETURN };
    compare("call and return, 0 bytes", &w, slots, 200, "27 (0K)");
    w.q[0] = (struct plain_request){ .kind = PLAIN_CALL, .mark = 7, .address = entry + 16, .input = 100, .output = 2048 };
    compare("call and return, 2,048 bytes each way", &w, slots, 200, "96 (4K)");
    w.events = 1;
    w.base.mode = (size_t)slots;
    w.base.running = (struct plain_running){ (size_t)slots - 1, 2048, 64 };
    w.bytes.n = 64;
    w.q[0] = (struct plain_request){ .kind = PLAIN_EXTEND, .index = 1, .source = PLAIN_PAYLOAD };
    compare("extend of 64 bytes", &w, slots, 100, "2.8");
    w.q[0] = (struct plain_request){ .kind = PLAIN_PCR_READ, .index = 1 };
    compare("uPCR read", &w, slots, 400, "0.8");
}

static double registered[65];

/* few enough to be done before another process is let in */
static int few(size_t held) { return held > 16 ? 1 : held > 4 ? 2 : COPIES; }

static void heavy(size_t pages, int slots, size_t each, size_t held, const char *first, const char *second)
{
    char name[64];
    uint8_t text[112];
    size_t from = 1 + (size_t)(slots - 1) * each;
    struct work w = { .base = filled(pages, 1, slots - 1, each), .events = 1, .changes = true };
    w.bytes = manifest(text, from, held);
    w.q[0] = (struct plain_request){ .kind = PLAIN_REGISTER, .mark = 7 };
    snprintf(name, sizeof name, "register %zu pages", held);
    double t = compare(name, &w, slots, few(held), first);
    if (slots == 1)
        registered[held] = t;
    w.base = filled(pages, 1, slots - 1, each);
    w.base.slots[slots - 1].card = (struct plain_card){ true, 7, block_at(from, held) };
    memset(w.base.owner + from, slots, held);
    w.q[0] = (struct plain_request){ .kind = PLAIN_UNREGISTER, .mark = 7, .slot = (size_t)slots - 1 };
    snprintf(name, sizeof name, "unregister %zu pages", held);
    compare(name, &w, slots, COPIES, second);
}

static double hashed(struct digest hash(const uint8_t *, size_t), size_t held)
{
    static volatile uint8_t sink;
    double best = 1e18;
    for (int i = 0; i < ROUNDS; i++) {
        double from = now();
        for (int j = 0; j < few(held); j++)
            sink ^= hash(memory + PLAIN_PAGE, held * PLAIN_PAGE).bytes[0];
        double took = (now() - from) / few(held);
        if (took < best)
            best = took;
    }
    return best;
}

static void bare(size_t held)
{
    double a = hashed(proved_hash, held), b = hashed(plain_sha1, held);
    printf("| %zu | %.0f | %.0f | %.2f | %.0f |\n", held, registered[held], a, registered[held] / a, b);
}

/* ---- stack: painted, then looked at for what is no paint any more */

enum { STACK = 1 << 18, PAINT = 0xa5 };
static uint8_t stack[STACK] __attribute__((aligned(64)));
static ucontext_t home, away;
static event *runs;
static struct plain_state *stack_state;
static struct plain_request stack_request;
static struct plain_bytes stack_bytes;

static void run_away(void)
{
    if (runs)
        (void)runs(stack_state, &stack_request, stack_bytes, memory, stack_state->pages * PLAIN_PAGE, buffer, ROOM);
}

static size_t depth(event *f)
{
    memset(stack, PAINT, sizeof stack);
    runs = f;
    getcontext(&away);
    away.uc_stack.ss_sp = stack;
    away.uc_stack.ss_size = sizeof stack;
    away.uc_link = &home;
    makecontext(&away, run_away, 0);
    swapcontext(&home, &away);
    size_t i = 0;
    while (i < sizeof stack && stack[i] == PAINT)
        i++;
    return sizeof stack - i;
}

static void deepest(void)
{
    size_t most = 0, most_c = 0, none = depth(NULL);
    uint8_t text[112];
    for (int kind = 1; kind <= 11; kind++)
        for (int secure = 0; secure < 2; secure++) {
            struct plain_state s = filled(PLAIN_PAGES, 1, 7, 64), t;
            if (secure) {
                struct plain_request q = { .kind = PLAIN_CALL, .mark = 7, .address = PLAIN_PAGE };
                both(&s, &q, (struct plain_bytes){ payload, 0 }, sizeof memory, ROOM);
            }
            stack_request = (struct plain_request){ .kind = (size_t)kind, .mark = 7, .address = secure ? PLAIN_PAGE + 64 : 64, .length = 64, .input = 64, .output = 128, .index = 1, .source = 2 };
            if (kind == PLAIN_CALL)
                stack_request.address = PLAIN_PAGE + 16;
            if (kind == PLAIN_JUMP && secure)
                stack_request.address = 0;
            stack_bytes = kind == PLAIN_REGISTER ? manifest(text, 512, 64) : (struct plain_bytes){ payload, 64 };
            t = s;
            stack_state = &t;
            size_t a = depth(proved) - none;
            t = s;
            size_t b = depth(plain_event) - none;
            memcpy(other, memory, sizeof memory);
            memcpy(other_buffer, buffer, sizeof buffer);
            if (a > most) most = a;
            if (b > most_c) most_c = b;
        }
    printf("\nDeepest stack use of one event, each kind tried in both modes with slots registered: proved %zu bytes, C %zu bytes.\n", most, most_c);
}

static void rows(void)
{
    light(8, 1, 2);
    light(8, 3, 2);
    light(1024, 1, 64);
    light(1024, 8, 64);
    heavy(8, 1, 2, 2, "", "");
    heavy(8, 1, 4, 4, "137 (16K)", "1.23 (16K)");
    for (int slots = 1; slots <= 8; slots += 7) {
        heavy(1024, slots, 64, 2, "", "");
        heavy(1024, slots, 64, 4, "137 (16K)", "1.23 (16K)");
        heavy(1024, slots, 64, 16, "463 (64K)", "1.67 (64K)");
        heavy(1024, slots, 64, 64, "", "");
    }
}

int main(int argc, char **argv)
{
    if (argc == 5 && !strcmp(argv[1], "count")) {
        wanted = atoi(argv[2]);
        counted = argv[3][0] == 'p' ? proved : plain_event;
        turns_wanted = atoi(argv[4]);
        rows();
        return 1;
    }
    int turns = argc > 1 ? atoi(argv[1]) : 30000;
    for (size_t i = 0; i < sizeof memory; i++)
        memory[i] = (uint8_t)(i * 7 + i / PLAIN_PAGE);
    for (size_t i = 0; i < sizeof payload; i++)
        payload[i] = (uint8_t)(i * 11);
    memcpy(other, memory, sizeof memory);
    agree(8, 1, turns);
    agree(24, 3, turns);
    agree(1024, 1, turns / 10);
    printf("\n| event | P | slots | proved, ns | C, ns | ratio | C by value, ns | ratio | TrustVisor, us |\n|---|--:|--:|--:|--:|--:|--:|--:|--:|\n");
    rows();
    printf("\n| pages | register, ns | bare hash, ns | ratio | C's bare hash, ns |\n|--:|--:|--:|--:|--:|\n");
    bare(2);
    bare(4);
    bare(16);
    bare(64);
    deepest();
    return 0;
}
