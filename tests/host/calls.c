/* Scripts of calls through the C interface: tests/second/src/calls.rs says what their lines are and answers them too. Each line has one line for an answer; after
 * an event it tells the whole of state, memory and buffer as a number. */
#include "board.h"

static struct monitor_fields fields; /* read last, or set by field */
static struct monitor kept;
static uint8_t kept_memory[MOST];
static size_t kept_length = SIZE_MAX;

static uint64_t step(uint64_t sum, uint64_t word) {
    sum = (sum ^ word) * 0x100000001b3u;
    return sum << 23 | sum >> 41;
}
static uint64_t digest(const uint8_t *bytes, size_t n) {
    uint64_t sum = n, word;
    size_t i = 0;
    for (; i + 8 <= n; i += 8) memcpy(&word, bytes + i, 8), sum = step(sum, word);
    for (; i < n; i++) sum = step(sum, bytes[i]);
    return sum;
}

static uint8_t text[8192], *end;
static void put(const void *value, size_t n) { memcpy(end, value, n), end += n; }
static void put_fields(const struct monitor_fields *f) {
    put(&f->r, 8), put(&f->e, 8);
    for (int i = 0; i < 4; i++) put(&f->runs[i].kind, 1), put(&f->runs[i].count, 2), put(&f->runs[i].first, 4);
    for (int i = 0; i < 8; i++) put(&f->entries[i].address, 4), put(&f->entries[i].input, 2), put(&f->entries[i].output, 2);
}
static uint64_t digest_fields(const struct monitor_fields *f) {
    end = text;
    put_fields(f);
    return digest(text, (size_t)(end - text));
}
static uint64_t digest_state(const struct monitor *m) {
    end = text;
    put(&m->pages, 8), put(&m->kept, 8), put(m->owner, sizeof m->owner);
    for (unsigned k = 0; k < MONITOR_SLOTS; k++) {
        const struct monitor_slot *s = &m->slots[k];
        put(&s->card.registered, 1), put(&s->card.mark, 8), put_fields(&s->card.fields), put(s->pcrs, sizeof s->pcrs);
    }
    put(&m->mode, 8), put(&m->running.slot, 8), put(&m->running.out, 8), put(&m->running.length, 8);
    return digest(text, (size_t)(end - text));
}

static size_t unhex(const char *hex, uint8_t *bytes) {
    size_t n = 0;
    for (; hex[0] != '-' && hex[0] != 0; hex += 2, n++) {
        const char pair[3] = {hex[0], hex[1], 0};
        bytes[n] = (uint8_t)strtoul(pair, NULL, 16);
    }
    return n;
}

static void resize(size_t n) { /* memory keeps its bytes from the front on, and new ones are zero */
    size_t same = n < memory_length ? n : memory_length;
    memmove(slice(&memory, n), slice(&memory, memory_length), same);
    memset(slice(&memory, n) + same, 0, n - same);
    memory_length = n;
}

static void set_field(struct monitor_fields *f, const char *name, const size_t *n) {
    if (strcmp(name, "r") == 0) f->r = n[0];
    else if (strcmp(name, "e") == 0) f->e = n[0];
    else if (strcmp(name, "kind") == 0) f->runs[n[0]].kind = (uint8_t)n[1];
    else if (strcmp(name, "count") == 0) f->runs[n[0]].count = (uint16_t)n[1];
    else if (strcmp(name, "first") == 0) f->runs[n[0]].first = (uint32_t)n[1];
    else if (strcmp(name, "address") == 0) f->entries[n[0]].address = (uint32_t)n[1];
    else if (strcmp(name, "input") == 0) f->entries[n[0]].input = (uint16_t)n[1];
    else if (strcmp(name, "output") == 0) f->entries[n[0]].output = (uint16_t)n[1];
    else CHECK(!"a field");
}
static void set(const char *name, const size_t *n) {
    struct monitor *m = &state.m;
    if (strcmp(name, "pages") == 0) m->pages = n[0];
    else if (strcmp(name, "kept") == 0) m->kept = n[0];
    else if (strcmp(name, "owner") == 0) m->owner[n[0]] = (uint8_t)n[1];
    else if (strcmp(name, "mode") == 0) m->mode = n[0];
    else if (strcmp(name, "running") == 0) m->running = (struct monitor_running){n[0], n[1], n[2]};
    else if (strcmp(name, "registered") == 0) m->slots[n[0]].card.registered = n[1] != 0;
    else if (strcmp(name, "mark") == 0) m->slots[n[0]].card.mark = n[1];
    else if (strcmp(name, "pcr") == 0) m->slots[n[0]].pcrs[n[1]].bytes[n[2]] = (uint8_t)n[3];
    else set_field(&m->slots[n[0]].card.fields, name, n + 1);
}

static void told(struct monitor_reply a) { printf("%d %d %zu %016llx", a.number, a.kind, a.value, (unsigned long long)digest(answered(), buffer_length)); }

/* the map or the writer, on a fresh buffer between guards */
static void fill(bool map) {
    uint8_t *out = slice(&buffer, buffer_length);
    memset(out, 0x3C, buffer_length);
    guard_all();
    told(map ? monitor_device_map(state.m, out, buffer_length) : monitor_manifest_write(fields, out, buffer_length));
    guarded_all();
    printf("\n");
}

static void start(size_t pages, size_t top) {
    guard_all();
    int number = monitor_start(&state.m, pages, top);
    guarded_all();
    resize(0);
    resize(number == 0 ? pages * MONITOR_PAGE : 0);
    printf("%d %016llx\n", number, (unsigned long long)digest_state(&state.m));
}

static void read_manifest(const char *hex) {
    static uint8_t bytes[MOST];
    size_t n = unhex(hex, bytes);
    memcpy(slice(&payload, n), bytes, n);
    struct monitor_reading x = monitor_manifest_read(slice(&payload, n), n);
    fields = x.fields;
    printf("%d %016llx\n", x.refusal, (unsigned long long)digest_fields(&fields));
}

static void ask(const size_t *n, const char *hex) {
    static uint8_t bytes[MOST];
    size_t length = unhex(hex, bytes);
    told(event((struct monitor_request){n[0], n[1], n[2], n[3], n[4], n[5], n[6], n[7], n[8]}, bytes, length));
    printf(" %016llx %016llx\n", (unsigned long long)digest_state(&state.m), (unsigned long long)digest(slice(&memory, memory_length), memory_length));
}

static void keep(bool back) {
    if (!back) kept = state.m, memcpy(kept_memory, slice(&memory, memory_length), kept_length = memory_length);
    else if (kept_length != SIZE_MAX) state.m = kept, resize(kept_length), memcpy(slice(&memory, kept_length), kept_memory, kept_length);
}

int main(void) {
    char *line = NULL;
    size_t room = 0;
    ssize_t length;
    memory_length = 0;
    while ((length = getline(&line, &room, stdin)) > 0) {
        if (line[length - 1] == '\n') line[length - 1] = 0;
        if (line[0] == '#') {
            printf("%s\n", line);
            continue;
        }
        const char *words[12] = {0};
        size_t n[12] = {0}, count = 0;
        for (char *word = strtok(line, " "); word && count < 12; word = strtok(NULL, " ")) n[count] = strtoull(word, NULL, 10), words[count++] = word;
        CHECK(count > 0);
        if (strcmp(words[0], "event") == 0) ask(n + 1, words[10]);
        else if (strcmp(words[0], "read") == 0) read_manifest(words[1]);
        else if (strcmp(words[0], "start") == 0) start(n[1], n[2]);
        else if (strcmp(words[0], "map") == 0 || strcmp(words[0], "write") == 0) fill(words[0][0] == 'm');
        else {
            if (strcmp(words[0], "set") == 0) set(words[1], n + 2);
            else if (strcmp(words[0], "field") == 0) set_field(&fields, words[1], n + 2);
            else if (strcmp(words[0], "memory") == 0) resize(n[1]);
            else if (strcmp(words[0], "room") == 0) buffer_length = n[1];
            else if (strcmp(words[0], "keep") == 0 || strcmp(words[0], "back") == 0) keep(words[0][0] == 'b');
            else CHECK(!"a call");
            printf("set\n");
        }
    }
    return 0;
}
