/* The deepest stack of each function: it runs on a stack of its own, painted before, and what it painted over is counted. */
#include "board.h"
#include <ucontext.h>

enum { DEEP = 256 * 1024, PAINT = 0x5A };
static uint8_t deep[DEEP] __attribute__((aligned(64)));
static ucontext_t here, there;
static struct monitor_request asked;
static size_t length;
static uint8_t bytes[MONITOR_PAGE], number;
static struct monitor_reply reply;
static struct monitor_reading reading;

static void nothing(void) {}
static void run_start(void) { number = monitor_start(&state.m, 8, 1); }
static void run_event(void) {
    reply = monitor_event(&state.m, asked, bytes, length, slice(&memory, memory_length), memory_length, slice(&buffer, buffer_length), buffer_length);
}
static void run_map(void) { reply = monitor_device_map(state.m, slice(&buffer, buffer_length), buffer_length); }
static void run_read(void) { reading = monitor_manifest_read(bytes, length); }
static void run_write(void) { reply = monitor_manifest_write(reading.fields, slice(&buffer, buffer_length), buffer_length); }

static size_t used(void (*run)(void)) {
    memset(deep, PAINT, sizeof deep);
    CHECK(getcontext(&there) == 0);
    there.uc_stack.ss_sp = deep;
    there.uc_stack.ss_size = sizeof deep;
    there.uc_link = &here;
    makecontext(&there, run, 0);
    CHECK(swapcontext(&here, &there) == 0);
    size_t i = 0;
    while (i < DEEP && deep[i] == PAINT) i++;
    return DEEP - i;
}

static size_t base, deepest;
static void show(const char *what, void (*run)(void), bool an_event) {
    size_t n = used(run) - base;
    if (an_event && n > deepest) deepest = n;
    printf("  %-24s %6zu bytes\n", what, n);
}
static void ask(const char *what, struct monitor_request q, int number) {
    asked = q;
    show(what, run_event, true);
    CHECK(reply.number == number);
}

int main(int count, char **words) {
    static const uint8_t manifest[40] = {1, 0, 1, 0, 2, 0, 0, 0, 4, 0, 1, 0, 3, 0, 0, 0, 0, 0x20, 0, 0, 4, 0, 4, 0, 'S', 'S', 'C', 'B', 1, 2, 1, 0, 24, 0, 0, 0, 8, 0, 0, 0};
    size_t limit = count > 1 ? (size_t)atoi(words[1]) : 16384;
    base = used(nothing);
    show("start", run_start, false);
    memory_length = 8 * MONITOR_PAGE;
    memcpy(bytes, manifest, 40), length = 40;
    ask("register", (struct monitor_request){.kind = MONITOR_REGISTER, .mark = 7}, 0);
    ask("call", (struct monitor_request){.kind = MONITOR_CALL, .mark = 7, .address = 8192, .input = 100, .output = 200}, 0);
    ask("read", (struct monitor_request){.kind = MONITOR_READ, .address = 12288, .length = 4096}, 0);
    ask("write", (struct monitor_request){.kind = MONITOR_WRITE, .address = 12288}, 0);
    ask("device read", (struct monitor_request){.kind = MONITOR_DEVICE_READ, .length = 4096}, 0);
    ask("device write", (struct monitor_request){.kind = MONITOR_DEVICE_WRITE}, 0);
    ask("extend from payload", (struct monitor_request){.kind = MONITOR_EXTEND, .source = MONITOR_FROM_PAYLOAD}, 0);
    ask("extend from memory", (struct monitor_request){.kind = MONITOR_EXTEND, .source = MONITOR_FROM_MEMORY, .address = 12288, .length = 4096}, 0);
    ask("microPCR read", (struct monitor_request){.kind = MONITOR_PCR_READ}, 0);
    ask("return", (struct monitor_request){.kind = MONITOR_RETURN}, 0);
    ask("jump", (struct monitor_request){.kind = MONITOR_JUMP}, 0);
    ask("unregister", (struct monitor_request){.kind = MONITOR_UNREGISTER, .mark = 7}, 0);
    ask("no event", (struct monitor_request){.kind = 0}, 255);
    ask("register again", (struct monitor_request){.kind = MONITOR_REGISTER, .mark = 7}, 0);
    ask("call again", (struct monitor_request){.kind = MONITOR_CALL, .mark = 7, .address = 8192, .input = 100, .output = 200}, 0);
    ask("jump that terminates", (struct monitor_request){.kind = MONITOR_JUMP, .address = 1}, 0);
    show("device map", run_map, false);
    show("manifest read", run_read, false);
    show("manifest write", run_write, false);
    printf("deepest stack of an event: %zu bytes (limit %zu)\n", deepest, limit);
    return deepest <= limit ? 0 : 1;
}
