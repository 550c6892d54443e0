/* A board for the tests: a state, memory, payload and buffer, each between guard bytes, and one event on them with all that holds after any event checked. */
#ifndef BOARD_H
#define BOARD_H
#include "monitor.h"
#include <stdio.h>
#include <stdlib.h>
#include <string.h>

enum { GUARD = 64, MOST = 1025 * MONITOR_PAGE, ROOM = 4096, GUARDED = 0xA5 };

struct lent {
    uint8_t before[GUARD], bytes[MOST], after[GUARD];
};
static struct {
    uint8_t before[GUARD];
    struct monitor m;
    uint8_t after[GUARD];
} state;
static struct lent payload, memory, buffer;
static size_t memory_length = 8 * MONITOR_PAGE, buffer_length = ROOM;

#define CHECK(holds) ((holds) ? (void)0 : failed(__FILE__, __LINE__, #holds))
static void failed(const char *file, int line, const char *what) {
    printf("%s:%d: does not hold: %s\n", file, line, what);
    exit(1);
}

/* a slice ends at its guard, so that one byte too far is seen */
static uint8_t *slice(struct lent *l, size_t n) { return l->bytes + sizeof l->bytes - n; }

static void guard(uint8_t *at) { memset(at, GUARDED, GUARD); }
static void guarded(const uint8_t *at) {
    for (int i = 0; i < GUARD; i++) CHECK(at[i] == GUARDED);
}
static void guard_all(void) {
    struct lent *all[] = {&payload, &memory, &buffer};
    guard(state.before), guard(state.after);
    for (int i = 0; i < 3; i++) guard(all[i]->before), guard(all[i]->after);
}
static void guarded_all(void) {
    const struct lent *all[] = {&payload, &memory, &buffer};
    guarded(state.before), guarded(state.after);
    for (int i = 0; i < 3; i++) guarded(all[i]->before), guarded(all[i]->after);
}

/* every field; the bytes between fields are nobody's */
static bool same_fields(const struct monitor_fields *a, const struct monitor_fields *b) {
    bool same = a->r == b->r && a->e == b->e;
    for (int i = 0; i < 4; i++) same = same && a->runs[i].kind == b->runs[i].kind && a->runs[i].count == b->runs[i].count && a->runs[i].first == b->runs[i].first;
    return same && memcmp(a->entries, b->entries, sizeof a->entries) == 0;
}
static bool same_state(const struct monitor *a, const struct monitor *b) {
    bool same = a->pages == b->pages && a->kept == b->kept && memcmp(a->owner, b->owner, sizeof a->owner) == 0 && a->mode == b->mode &&
                memcmp(&a->running, &b->running, sizeof a->running) == 0;
    for (unsigned k = 0; k < MONITOR_SLOTS; k++) {
        const struct monitor_slot *x = &a->slots[k], *y = &b->slots[k];
        same = same && x->card.registered == y->card.registered && x->card.mark == y->card.mark && same_fields(&x->card.fields, &y->card.fields) &&
               memcmp(x->pcrs, y->pcrs, sizeof x->pcrs) == 0;
    }
    return same;
}

/* One event. Whatever it answers: no guard byte moves, the payload is only read, the buffer from reply.value on is kept; refused, all is kept. */
static struct monitor_reply event(struct monitor_request q, const void *bytes, size_t n) {
    static struct monitor was;
    static uint8_t old_memory[MOST], old_buffer[MOST];
    uint8_t *in = slice(&payload, n), *mem = slice(&memory, memory_length), *out = slice(&buffer, buffer_length);
    memcpy(in, bytes, n);
    memset(out, 0x3C, buffer_length);
    was = state.m;
    memcpy(old_memory, mem, memory_length);
    memcpy(old_buffer, out, buffer_length);
    guard_all();
    struct monitor_reply a = monitor_event(&state.m, q, in, n, mem, memory_length, out, buffer_length);
    guarded_all();
    CHECK(memcmp(in, bytes, n) == 0);
    size_t filled = a.kind == MONITOR_FILLED ? a.value : 0;
    CHECK(filled <= buffer_length && memcmp(out + filled, old_buffer + filled, buffer_length - filled) == 0);
    CHECK((a.kind == MONITOR_REFUSED) == (a.number != 0));
    if (a.number != 0) {
        CHECK(a.value == 0);
        CHECK(same_state(&state.m, &was));
        CHECK(memcmp(mem, old_memory, memory_length) == 0);
    }
    return a;
}
static const uint8_t *answered(void) { return slice(&buffer, buffer_length); }

static void begin(size_t pages, size_t kept) {
    guard_all();
    CHECK(monitor_start(&state.m, pages, kept) == 0);
    guarded_all();
    memory_length = pages * MONITOR_PAGE;
    memset(slice(&memory, memory_length), 0, memory_length);
}
#endif
