/* memmove for the archive alone (host/archive.sh hides its name): the compiler calls it where a proved loop copies bytes, and the firmware is
 * asked for memcpy and memset only. It is not proved; tests/host.sh tries every distance (docs/TRUST.md). */
#include <stddef.h>
#include <stdint.h>

void *memcpy(void *to, const void *from, size_t n);
void *memmove(void *to, const void *from, size_t n);

void *memmove(void *to, const void *from, size_t n)
{
    uintptr_t ahead = (uintptr_t)from - (uintptr_t)to, behind = (uintptr_t)to - (uintptr_t)from;
    if (ahead >= n && behind >= n)
        return memcpy(to, from, n);
    uint8_t *t = to;
    const uint8_t *f = from;
    if (ahead < n)
        for (size_t i = 0; i < n; i++)
            t[i] = f[i];
    else
        for (size_t i = n; i > 0; i--)
            t[i - 1] = f[i - 1];
    return to;
}
