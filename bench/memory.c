// Times the proved functions of crate `memory` beside memcpy and memset, in one run, and prints ns and ratios.
#include <stdint.h>
#include <stdio.h>
#include <string.h>
#include <time.h>

enum { PAGE = 4096, PAGES = 128, ROUNDS = 200 };

// A slice is lent as its start and its length.
void zero_run(uint8_t *memory, size_t length, size_t first, size_t count);
void move_bytes(uint8_t *memory, size_t length, size_t from, size_t to, size_t n);
void put_bytes(uint8_t *memory, size_t length, size_t at, const uint8_t *payload, size_t n);
void give_bytes(const uint8_t *memory, size_t length, size_t at, size_t n, uint8_t *buffer, size_t room);

static uint8_t memory[PAGES * PAGE], buffer[PAGE];

#define KEEP __attribute__((noinline))
KEEP static void ours_move(size_t n) { move_bytes(memory, sizeof memory, 5 * PAGE + 100, 9 * PAGE, n); }
KEEP static void c_move(size_t n) { memcpy(memory + 9 * PAGE, memory + 5 * PAGE + 100, n); }
KEEP static void ours_zero(size_t n) { zero_run(memory, sizeof memory, 16, n / PAGE); }
KEEP static void c_zero(size_t n) { memset(memory + 16 * PAGE, 0, n); }
KEEP static void ours_give(size_t n) { give_bytes(memory, sizeof memory, 7 * PAGE, n, buffer, sizeof buffer); }
KEEP static void c_give(size_t n) { memcpy(buffer, memory + 7 * PAGE, n); }
KEEP static void ours_put(size_t n) { put_bytes(memory, sizeof memory, 7 * PAGE, buffer, n); }
KEEP static void c_put(size_t n) { memcpy(memory + 7 * PAGE, buffer, n); }

static double once(void (*work)(size_t), size_t n, int times) {
    struct timespec a, b;
    clock_gettime(CLOCK_MONOTONIC, &a);
    for (int i = 0; i < times; i++) {
        work(n);
        __asm__ volatile("" ::: "memory");
    }
    clock_gettime(CLOCK_MONOTONIC, &b);
    return ((b.tv_sec - a.tv_sec) * 1e9 + (b.tv_nsec - a.tv_nsec)) / times;
}

// The best of many short rounds, ours and C's in turn, so that both meet the same machine.
static void compare(const char *name, void (*ours)(size_t), void (*c)(size_t), size_t n, int times) {
    double best = 1e18, best_c = 1e18;
    for (int round = 0; round < ROUNDS; round++) {
        double t = once(ours, n, times), t_c = once(c, n, times);
        if (t < best) best = t;
        if (t_c < best_c) best_c = t_c;
    }
    printf("| %s | %.1f | %.1f | %.2f |\n", name, best, best_c, best / best_c);
}

int main(void) {
    for (size_t i = 0; i < sizeof memory; i++) memory[i] = (uint8_t)(i * 7 + i / PAGE);
    printf("| work | proved, ns | C, ns | ratio |\n|---|--:|--:|--:|\n");
    compare("move 2,048 bytes", ours_move, c_move, 2048, 2000);
    compare("give 4,096 bytes", ours_give, c_give, 4096, 2000);
    compare("put 4,096 bytes", ours_put, c_put, 4096, 2000);
    compare("zero 64 pages", ours_zero, c_zero, 64 * PAGE, 100);
    return 0;
}
