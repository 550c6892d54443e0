/* Events over the lent state, and the same by value: best of ROUNDS, in turn. */
#include "monitor.h"
#include <stdio.h>
#include <string.h>
#include <time.h>

struct outcome {
    struct monitor monitor;
    struct monitor_reply reply;
};
/* what monitor_event does, by value; bench/host.sh alone has it */
struct outcome stepped(struct monitor m, struct monitor_request q, const uint8_t *payload, size_t payload_length, uint8_t *memory, size_t memory_length,
                       uint8_t *buffer, size_t buffer_length);

enum { ROUNDS = 200, TIMES = 50, PAGES = 72 };
static struct monitor m;
static uint8_t memory[PAGES * MONITOR_PAGE], buffer[MONITOR_PAGE];
static uint8_t small[40] = {1, 0, 1, 0, 2, 0, 0, 0, 4, 0, 1, 0, 3, 0, 0, 0, 0, 0x20, 0, 0, 4, 0, 4, 0, 'S', 'S', 'C', 'B', 1, 2, 1, 0, 24, 0, 0, 0, 8, 0, 0, 0};

static struct monitor_reply lent(struct monitor_request q, const uint8_t *payload, size_t n) {
    return monitor_event(&m, q, payload, n, memory, sizeof memory, buffer, sizeof buffer);
}
static struct monitor_reply by_value(struct monitor_request q, const uint8_t *payload, size_t n) {
    struct outcome o = stepped(m, q, payload, n, memory, sizeof memory, buffer, sizeof buffer);
    m = o.monitor;
    return o.reply;
}
typedef struct monitor_reply way(struct monitor_request, const uint8_t *, size_t);

static int bad;
static void must(struct monitor_reply a, int number) { bad |= a.number != number; }
static void refused(way *w) { must(w((struct monitor_request){.kind = MONITOR_RETURN}, small, 0), 2); }
static void read4(way *w) { must(w((struct monitor_request){.kind = MONITOR_READ, .address = 100, .length = 4}, small, 0), 0); }
static void write4(way *w) { must(w((struct monitor_request){.kind = MONITOR_WRITE, .address = 100}, small, 4), 0); }
static void call_return(way *w) {
    must(w((struct monitor_request){.kind = MONITOR_CALL, .mark = 7, .address = 8192, .input = 100, .output = 200}, small, 0), 0);
    must(w((struct monitor_request){.kind = MONITOR_RETURN}, small, 0), 0);
}
static void life(way *w) {
    must(w((struct monitor_request){.kind = MONITOR_UNREGISTER, .mark = 7}, small, 0), 0);
    must(w((struct monitor_request){.kind = MONITOR_REGISTER, .mark = 7}, small, 40), 0);
}

static double now(void) {
    struct timespec t;
    clock_gettime(CLOCK_MONOTONIC, &t);
    return (double)t.tv_sec * 1e9 + (double)t.tv_nsec;
}
static double once(void (*work)(way *), way *w) {
    double t = now();
    for (int i = 0; i < TIMES; i++) work(w);
    return (now() - t) / TIMES;
}
static void compare(const char *what, void (*work)(way *)) {
    double a = 1e18, b = 1e18;
    for (int i = 0; i < ROUNDS; i++) {
        double x = once(work, lent), y = once(work, by_value);
        a = x < a ? x : a;
        b = y < b ? y : b;
    }
    printf("| %s | %.0f | %.0f | %.2f |\n", what, a, b, a / b);
}

int main(void) {
    bad = monitor_start(&m, PAGES, 1);
    must(lent((struct monitor_request){.kind = MONITOR_REGISTER, .mark = 7}, small, 40), 0);
    printf("| event | lent, ns | by value, ns | ratio |\n|---|--:|--:|--:|\n");
    compare("refused in this mode", refused);
    compare("read 4 bytes", read4);
    compare("write 4 bytes", write4);
    compare("call and return", call_return);
    compare("unregister and register, 2 pages", life);
    if (bad) printf("an answer is not the one expected\n");
    return bad;
}
