/* Runs the program of docs/HOST.md, which tests/host.sh writes to life.h. */
#include "life.h"
#include <stdio.h>
#include <string.h>

uint8_t memory[8 * 4096];

int main(void) {
    memcpy(memory + 100, "abcd", 4);
    if (life() != 0 || m.mode != 0 || m.slots[0].card.registered || memcmp(memory + 200, "\0\0\0\0", 4) != 0) {
        printf("docs/HOST.md's program does not do what the page says\n");
        return 1;
    }
    for (size_t i = 8192; i < 16384; i++)
        if (memory[i] != 0) return 1;
    printf("docs/HOST.md's program registers, calls and returns a codeblock\n");
    return 0;
}
