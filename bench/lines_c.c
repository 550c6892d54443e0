/* The line program (document 01) over the plain C monitor: what `bench` is measured against. Blocks in, blocks out. */
#include "monitor_c.h"
#include <errno.h>
#include <string.h>
#include <unistd.h>

#ifndef PAGES /* document 01's numbers; bench/check-c.sh tries others */
#define PAGES 8
#define KEPT 1
#define ROOM 4096
#endif
enum { LONGEST = 2000, BLOCK = 1 << 16, UNREADABLE = 11 };

static struct plain_state state;
static uint8_t memory[PAGES * PLAIN_PAGE], buffer[ROOM], payload[LONGEST / 2];
static char in[LONGEST + BLOCK], out[BLOCK];
static size_t filled;

static int digit(uint8_t c)
{
    if ('0' <= c && c <= '9')
        return c - '0';
    return 'a' <= c && c <= 'f' ? c - 'a' + 10 : -1;
}

/* ---- writing */

static void flush(void)
{
    for (size_t at = 0; at < filled;) {
        ssize_t n = write(STDOUT_FILENO, out + at, filled - at);
        if (n < 0 && errno == EINTR)
            continue;
        if (n <= 0)
            _exit(1);
        at += (size_t)n;
    }
    filled = 0;
}

static void need(size_t n)
{
    if (n > sizeof out - filled)
        flush();
}

static void say(const char *text)
{
    size_t n = strlen(text);
    memcpy(out + filled, text, n);
    filled += n;
}

static void say_number(const char *text, size_t value)
{
    char digits[20];
    size_t n = 0;
    do
        digits[n++] = (char)('0' + value % 10);
    while (value /= 10);
    say(text);
    while (n > 0)
        out[filled++] = digits[--n];
}

static void say_bytes(size_t n)
{
    static const char digits[] = "0123456789abcdef";
    say("hex ");
    char *p = out + filled;
    for (size_t i = 0; i < n; i++) {
        p[2 * i] = digits[buffer[i] >> 4];
        p[2 * i + 1] = digits[buffer[i] & 15];
    }
    filled += 2 * n;
}

static void answer(struct plain_reply r)
{
    need(2 * PLAIN_PAGE + 32);
    switch (r.kind) {
    case PLAIN_REFUSED: say_number("no ", r.number); break;
    case PLAIN_DONE: say("ok"); break;
    case PLAIN_SLOT: say_number("slot ", r.value); break;
    case PLAIN_ENTERED: say_number("in ", r.value); break;
    case PLAIN_LEFT: say_number("out ", r.value); break;
    case PLAIN_TERMINATED: say_number("dead ", r.value); break;
    case PLAIN_FILLED: say_bytes(r.value); break;
    }
    out[filled++] = '\n';
}

/* ---- reading: each takes one field off the text, behind the space before it */

struct text { const char *at, *end; };

static bool space(struct text *t) { return t->at < t->end && *t->at++ == ' '; }

static bool number(struct text *t, uint64_t *value)
{
    if (!space(t) || t->at == t->end)
        return false;
    const char *from = t->at;
    uint64_t v = 0;
    for (; t->at < t->end && *t->at != ' '; t->at++) {
        unsigned d = (unsigned)(*t->at - '0');
        if (d > 9 || __builtin_mul_overflow(v, 10, &v) || __builtin_add_overflow(v, d, &v))
            return false;
    }
    if (t->at == from || (*from == '0' && t->at - from > 1))
        return false;
    *value = v;
    return true;
}

static bool hex(struct text *t, struct plain_bytes *bytes)
{
    if (!space(t))
        return false;
    const char *p = t->at;
    size_t n = (size_t)(t->end - p);
    t->at = t->end;
    bytes->at = payload;
    if (n == 1 && *p == '-')
        return true;
    if (n == 0 || n % 2 != 0)
        return false;
    for (size_t i = 0; i < n / 2; i++) {
        int high = digit((uint8_t)p[2 * i]), low = digit((uint8_t)p[2 * i + 1]);
        if (high < 0 || low < 0)
            return false;
        payload[i] = (uint8_t)(high << 4 | low);
    }
    bytes->n = n / 2;
    return true;
}

static bool readable(struct text t, struct plain_request *q, struct plain_bytes *bytes)
{
    static const struct { char word[5]; uint8_t length, kind, source; } words[] = {
        { "reg", 3, PLAIN_REGISTER, 0 }, { "unr", 3, PLAIN_UNREGISTER, 0 }, { "call", 4, PLAIN_CALL, 0 }, { "ret", 3, PLAIN_RETURN, 0 },
        { "jmp", 3, PLAIN_JUMP, 0 }, { "get", 3, PLAIN_READ, 0 }, { "put", 3, PLAIN_WRITE, 0 }, { "dget", 4, PLAIN_DEVICE_READ, 0 },
        { "dput", 4, PLAIN_DEVICE_WRITE, 0 }, { "extp", 4, PLAIN_EXTEND, PLAIN_PAYLOAD }, { "extm", 4, PLAIN_EXTEND, PLAIN_MEMORY },
        { "pcr", 3, PLAIN_PCR_READ, 0 },
    };
    const char *gap = memchr(t.at, ' ', (size_t)(t.end - t.at));
    size_t n = (size_t)((gap ? gap : t.end) - t.at);
    for (size_t i = 0; i < sizeof words / sizeof *words && q->kind == 0; i++)
        if (n == words[i].length && memcmp(t.at, words[i].word, n) == 0) {
            q->kind = words[i].kind;
            q->source = words[i].source;
        }
    t.at += n;
    bool ok = false;
    switch (q->kind) {
    case PLAIN_REGISTER: ok = number(&t, &q->mark) && hex(&t, bytes); break;
    case PLAIN_UNREGISTER: ok = number(&t, &q->mark) && number(&t, &q->slot); break;
    case PLAIN_CALL: ok = number(&t, &q->mark) && number(&t, &q->address) && number(&t, &q->input) && number(&t, &q->output); break;
    case PLAIN_RETURN: ok = true; break;
    case PLAIN_JUMP: ok = number(&t, &q->address); break;
    case PLAIN_READ:
    case PLAIN_DEVICE_READ: ok = number(&t, &q->address) && number(&t, &q->length); break;
    case PLAIN_WRITE:
    case PLAIN_DEVICE_WRITE: ok = number(&t, &q->address) && hex(&t, bytes); break;
    case PLAIN_EXTEND:
        ok = number(&t, &q->index) && (q->source == PLAIN_PAYLOAD ? hex(&t, bytes) : number(&t, &q->address) && number(&t, &q->length));
        break;
    case PLAIN_PCR_READ: ok = number(&t, &q->index); break;
    }
    return ok && t.at == t.end;
}

static void line(const char *at, size_t n)
{
    struct plain_request q = { 0 };
    struct plain_bytes bytes = { payload, 0 };
    if (n > LONGEST || !readable((struct text){ at, at + n }, &q, &bytes))
        answer((struct plain_reply){ .number = UNREADABLE });
    else
        answer(plain_event(&state, &q, bytes, memory, sizeof memory, buffer, sizeof buffer));
}

int main(void)
{
    size_t have = 0; /* bytes of an unfinished line, at the start of `in` */
    bool over = false; /* the unfinished line is over-long, and its start is dropped */
    plain_start(&state, PAGES, KEPT);
    for (;;) {
        ssize_t n = read(STDIN_FILENO, in + have, sizeof in - have);
        if (n < 0 && errno == EINTR)
            continue;
        if (n <= 0)
            break;
        char *at = in, *end = in + have + n, *stop;
        while ((stop = memchr(at, '\n', (size_t)(end - at)))) {
            line(at, over ? LONGEST + 1 : (size_t)(stop - at));
            over = false;
            at = stop + 1;
        }
        have = (size_t)(end - at);
        if (over || have > LONGEST) {
            over = true;
            have = 0;
        }
        memmove(in, at, have);
    }
    if (over || have > 0)
        line(in, over ? LONGEST + 1 : have);
    flush();
    return 0;
}
