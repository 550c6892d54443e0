// The archive's memmove (host/memmove.c) beside a copy by way of a second array: every place, distance and length in a short memory.
#include <stdio.h>
#include <string.h>
#define memmove moved
#include "../../host/memmove.c"
#undef memmove

enum { SIZE = 96, LONGEST = 40 };

static int same(size_t from, size_t to, size_t n)
{
    uint8_t got[SIZE], want[SIZE], held[SIZE];
    for (size_t i = 0; i < SIZE; i++)
        got[i] = want[i] = (uint8_t)(7 * i + 1);
    memcpy(held, want + from, n);
    memcpy(want + to, held, n);
    return moved(got + to, got + from, n) == got + to && memcmp(got, want, SIZE) == 0;
}

int main(void)
{
    size_t tried = 0;
    for (size_t n = 0; n <= LONGEST; n++)
        for (size_t from = 0; from + n <= SIZE; from++)
            for (size_t to = 0; to + n <= SIZE; to++, tried++)
                if (!same(from, to, n)) {
                    printf("%zu bytes from %zu to %zu: wrong\n", n, from, to);
                    return 1;
                }
    printf("memmove: %zu moves are right\n", tried);
    return 0;
}
