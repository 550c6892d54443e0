/* The plain C monitor: document 01's checks in its order, on a state that is changed where it stands. */
#include "monitor_c.h"
#include <string.h>

#define NAME plain_sha1
#include "monitor_sha1.c"

enum { CODE = 1, PARAM = 4, MONITORS = 255 };
_Static_assert(sizeof(struct digest) == PLAIN_DIGEST, "a digest is a uPCR");

static struct plain_reply no(uint8_t number) { return (struct plain_reply){ .number = number }; }
static struct plain_reply yes(uint8_t kind, size_t value) { return (struct plain_reply){ .kind = kind, .value = value }; }

static bool all_zero(const void *bytes, size_t n)
{
    const uint8_t *p = bytes;
    uint8_t bits = 0;
    for (size_t i = 0; i < n; i++)
        bits |= p[i];
    return bits == 0;
}

/* ---- manifests */

static bool run_zero(const struct plain_run *x) { return (x->kind | x->count | x->first) == 0; }

static bool code_holds(const struct plain_run *x, size_t page)
{
    return x->kind == CODE && page - x->first < x->count;
}

static bool in_code(const struct plain_fields *f, size_t page)
{
    for (size_t i = 0; i < f->r; i++)
        if (code_holds(&f->runs[i], page))
            return true;
    return false;
}

static bool runs_right(const struct plain_fields *f)
{
    size_t end = 0, held = 0, codes = 0, params = 0;
    for (size_t i = 0; i < f->r; i++) {
        const struct plain_run *x = &f->runs[i];
        if (x->kind < CODE || x->kind > PARAM || x->count == 0 || x->first < end)
            return false;
        if (x->kind == PARAM && x->count != 1)
            return false;
        end = (size_t)x->first + x->count;
        held += x->count;
        codes += x->kind == CODE;
        params += x->kind == PARAM;
    }
    return end <= PLAIN_PAGES && held <= PLAIN_HELD && codes > 0 && params == 1;
}

static bool entries_right(const struct plain_fields *f)
{
    for (size_t i = 0; i < f->e; i++) {
        const struct plain_entry *x = &f->entries[i];
        if (x->input > PLAIN_HALF || x->output > PLAIN_HALF || !in_code(f, x->address / PLAIN_PAGE))
            return false;
        if (i > 0 && x->address <= x[-1].address)
            return false;
    }
    return true;
}

static bool unused_zero(const struct plain_fields *f)
{
    for (size_t i = f->r; i < PLAIN_RUNS; i++)
        if (!run_zero(&f->runs[i]))
            return false;
    return all_zero(&f->entries[f->e], (PLAIN_ENTRIES - f->e) * sizeof *f->entries);
}

static bool counts_right(size_t r, size_t e) { return 2 <= r && r <= PLAIN_RUNS && 1 <= e && e <= PLAIN_ENTRIES; }

static bool keeps_rules(const struct plain_fields *f)
{
    return counts_right(f->r, f->e) && runs_right(f) && entries_right(f) && unused_zero(f);
}

static uint16_t u16(const uint8_t *p) { return (uint16_t)(p[0] | p[1] << 8); }
static uint32_t u32(const uint8_t *p) { return p[0] | (uint32_t)p[1] << 8 | (uint32_t)p[2] << 16 | (uint32_t)p[3] << 24; }

static bool read_manifest(struct plain_fields *f, struct plain_bytes m)
{
    if (m.n < 16)
        return false;
    const uint8_t *t = m.at + m.n - 16;
    size_t r = t[5], e = t[6];
    if (memcmp(t, "SSCB\1", 5) != 0 || !counts_right(r, e) || t[7] != 0)
        return false;
    if (m.n != 8 * (r + e) + 16 || u32(t + 8) != 8 * (r + e) || u32(t + 12) != 8 * e)
        return false;
    memset(f, 0, sizeof *f);
    f->r = r;
    f->e = e;
    for (size_t i = 0; i < r; i++) {
        const uint8_t *p = m.at + 8 * i;
        if (p[1] != 0)
            return false;
        f->runs[i] = (struct plain_run){ p[0], u16(p + 2), u32(p + 4) };
    }
    for (size_t i = 0; i < e; i++) {
        const uint8_t *p = m.at + 8 * (r + i);
        f->entries[i] = (struct plain_entry){ u32(p), u16(p + 4), u16(p + 6) };
    }
    return runs_right(f) && entries_right(f);
}

/* ---- pages */

static bool is_range(const struct plain_state *s, size_t address, size_t n)
{
    return n - 1 < PLAIN_PAGE && address % PLAIN_PAGE + n <= PLAIN_PAGE && address / PLAIN_PAGE < s->pages;
}

static bool is_open(const struct plain_state *s, size_t page) { return page < s->pages && s->owner[page] == 0; }

static bool is_own(const struct plain_state *s, size_t k, size_t page) { return page < s->pages && s->owner[page] == k + 1; }

static void give(struct plain_state *s, const struct plain_fields *f, uint8_t owner)
{
    for (size_t i = 0; i < f->r; i++)
        memset(s->owner + f->runs[i].first, owner, f->runs[i].count);
}

static size_t param_start(const struct plain_fields *f)
{
    size_t i = 0;
    while (f->runs[i].kind != PARAM)
        i++;
    return (size_t)PLAIN_PAGE * f->runs[i].first;
}

/* ---- well formed */

/* Entries and uPCRs stand side by side at the end of a slot, and have no padding. */
static bool free_right(const struct plain_slot *x)
{
    enum { FROM = offsetof(struct plain_slot, card.fields.entries) };
    const struct plain_fields *f = &x->card.fields;
    if ((x->card.mark | f->r | f->e) != 0)
        return false;
    for (size_t i = 0; i < PLAIN_RUNS; i++)
        if (!run_zero(&f->runs[i]))
            return false;
    return all_zero((const uint8_t *)x + FROM, sizeof *x - FROM);
}

/* What the slots say is painted into a table and compared with the owner table. A page that the owner table gives to its
   slot is in no other, since the other would find it not its own. */
static bool pages_right(const struct plain_state *s)
{
    uint8_t table[PLAIN_PAGES] = { 0 };
    size_t top = s->pages - s->kept;
    memset(table + top, MONITORS, s->kept);
    for (size_t k = 0; k < PLAIN_SLOTS; k++) {
        const struct plain_card *x = &s->slots[k].card;
        if (!x->registered) {
            if (!free_right(&s->slots[k]))
                return false;
            continue;
        }
        if (!keeps_rules(&x->fields))
            return false;
        for (size_t i = 0; i < x->fields.r; i++) {
            size_t first = x->fields.runs[i].first, count = x->fields.runs[i].count;
            uint8_t bad = 0;
            if (first + count > top)
                return false;
            for (size_t p = first; p < first + count; p++)
                bad |= s->owner[p] ^ (uint8_t)(k + 1);
            if (bad)
                return false;
            memset(table + first, (int)k + 1, count);
        }
    }
    return memcmp(table, s->owner, sizeof table) == 0;
}

static bool running_right(const struct plain_state *s)
{
    const struct plain_running *x = &s->running;
    if (s->mode == 0)
        return (x->slot | x->out | x->length) == 0;
    size_t k = s->mode - 1;
    if (k >= PLAIN_SLOTS || x->slot != k || !s->slots[k].card.registered)
        return false;
    const struct plain_fields *f = &s->slots[k].card.fields;
    size_t i = 0;
    while (i < f->e && f->entries[i].output != x->length)
        i++;
    if (i == f->e)
        return false;
    return x->length == 0 ? x->out == 0 : is_range(s, x->out, x->length) && is_open(s, x->out / PLAIN_PAGE);
}

static bool sizes_right(size_t pages, size_t kept) { return 2 <= pages && pages <= PLAIN_PAGES && 1 <= kept && kept < pages; }

static bool well_formed(const struct plain_state *s, size_t size)
{
    return sizes_right(s->pages, s->kept) && size == PLAIN_PAGE * s->pages && pages_right(s) && running_right(s);
}

/* ---- hashes */

static void extend(uint8_t pcr[PLAIN_DIGEST], struct digest content)
{
    uint8_t both[2 * PLAIN_DIGEST];
    memcpy(both, pcr, PLAIN_DIGEST);
    memcpy(both + PLAIN_DIGEST, content.bytes, PLAIN_DIGEST);
    struct digest d = plain_sha1(both, sizeof both);
    memcpy(pcr, d.bytes, PLAIN_DIGEST);
}

/* SHA-1 of the pages in run order: whole blocks of lent memory, then the padding. */
static struct digest measured(const struct plain_fields *f, const uint8_t *memory)
{
    uint32_t h[5] = { 0x67452301, 0xefcdab89, 0x98badcfe, 0x10325476, 0xc3d2e1f0 };
    uint8_t last[64] = { 0x80 };
    uint64_t n = 0;
    for (size_t i = 0; i < f->r; i++) {
        const uint8_t *p = memory + (size_t)PLAIN_PAGE * f->runs[i].first;
        size_t bytes = (size_t)PLAIN_PAGE * f->runs[i].count;
        for (size_t at = 0; at < bytes; at += 64)
            block(h, p + at);
        n += bytes;
    }
    for (int i = 0; i < 8; i++)
        last[63 - i] = (uint8_t)(n * 8 >> (8 * i));
    block(h, last);
    struct digest d;
    for (int i = 0; i < PLAIN_DIGEST; i++)
        d.bytes[i] = (uint8_t)(h[i / 4] >> (24 - 8 * (i % 4)));
    return d;
}

/* ---- events */

static void release(struct plain_state *s, size_t k, uint8_t *memory)
{
    const struct plain_fields *f = &s->slots[k].card.fields;
    for (size_t i = 0; i < f->r; i++)
        memset(memory + (size_t)PLAIN_PAGE * f->runs[i].first, 0, (size_t)PLAIN_PAGE * f->runs[i].count);
    give(s, f, 0);
    memset(&s->slots[k], 0, sizeof s->slots[k]);
    s->mode = 0;
    s->running = (struct plain_running){ 0 };
}

static struct plain_reply on_register(struct plain_state *s, uint64_t mark, struct plain_bytes payload, const uint8_t *memory)
{
    struct plain_fields f;
    if (!read_manifest(&f, payload))
        return no(3);
    for (size_t i = 0; i < f.r; i++) {
        size_t first = f.runs[i].first, count = f.runs[i].count;
        if (first + count > s->pages || !all_zero(s->owner + first, count))
            return no(6);
    }
    size_t k = 0;
    while (k < PLAIN_SLOTS && s->slots[k].card.registered)
        k++;
    if (k == PLAIN_SLOTS)
        return no(7);
    struct plain_slot *x = &s->slots[k];
    x->card.registered = true;
    x->card.mark = mark;
    x->card.fields = f;
    extend(x->pcrs[0], measured(&f, memory));
    give(s, &f, (uint8_t)(k + 1));
    return yes(PLAIN_SLOT, k);
}

static struct plain_reply on_unregister(struct plain_state *s, uint64_t mark, size_t k, uint8_t *memory)
{
    if (k >= PLAIN_SLOTS || !s->slots[k].card.registered || s->slots[k].card.mark != mark)
        return no(8);
    release(s, k, memory);
    return yes(PLAIN_DONE, 0);
}

static const struct plain_entry *entry_found(const struct plain_fields *f, size_t address)
{
    for (size_t i = 0; i < f->e; i++)
        if (f->entries[i].address == address)
            return &f->entries[i];
    return NULL;
}

static struct plain_reply on_call(struct plain_state *s, const struct plain_request *q, uint8_t *memory)
{
    const struct plain_entry *x = NULL;
    size_t k = 0;
    for (; k < PLAIN_SLOTS; k++) {
        const struct plain_card *card = &s->slots[k].card;
        if (card->registered && card->mark == q->mark && (x = entry_found(&card->fields, q->address)))
            break;
    }
    if (k == PLAIN_SLOTS)
        return no(8);
    if (x->input != 0 && !is_range(s, q->input, x->input))
        return no(4);
    if (x->output != 0 && !is_range(s, q->output, x->output))
        return no(4);
    if (x->input != 0 && !is_open(s, q->input / PLAIN_PAGE))
        return no(5);
    if (x->output != 0 && !is_open(s, q->output / PLAIN_PAGE))
        return no(5);
    if (x->input != 0)
        memcpy(memory + param_start(&s->slots[k].card.fields), memory + q->input, x->input);
    s->mode = k + 1;
    s->running = (struct plain_running){ k, x->output != 0 ? q->output : 0, x->output };
    return yes(PLAIN_ENTERED, k);
}

static struct plain_reply on_return(struct plain_state *s, uint8_t *memory)
{
    size_t n = s->running.length;
    memcpy(memory + s->running.out, memory + param_start(&s->slots[s->mode - 1].card.fields) + PLAIN_HALF, n);
    s->mode = 0;
    s->running = (struct plain_running){ 0 };
    return yes(PLAIN_LEFT, n);
}

static struct plain_reply on_jump(struct plain_state *s, size_t address, uint8_t *memory)
{
    size_t page = address / PLAIN_PAGE;
    if (s->mode == 0) {
        if (page >= s->pages)
            return no(4);
        return is_open(s, page) ? yes(PLAIN_DONE, 0) : no(5);
    }
    size_t k = s->mode - 1;
    if (in_code(&s->slots[k].card.fields, page))
        return yes(PLAIN_DONE, 0);
    release(s, k, memory);
    return yes(PLAIN_TERMINATED, k);
}

static bool reads(const struct plain_state *s, size_t page, bool device)
{
    return device || s->mode == 0 ? is_open(s, page) : is_own(s, s->mode - 1, page);
}

static bool writes(const struct plain_state *s, size_t page, bool device)
{
    return reads(s, page, device) && (device || s->mode == 0 || !in_code(&s->slots[s->mode - 1].card.fields, page));
}

static struct plain_reply on_read(const struct plain_state *s, size_t address, size_t n, bool device, const uint8_t *memory, uint8_t *buffer, size_t room)
{
    if (!is_range(s, address, n))
        return no(4);
    if (!reads(s, address / PLAIN_PAGE, device))
        return no(5);
    if (n > room)
        return no(9);
    memcpy(buffer, memory + address, n);
    return yes(PLAIN_FILLED, n);
}

static struct plain_reply on_write(const struct plain_state *s, size_t address, bool device, struct plain_bytes payload, uint8_t *memory)
{
    if (!is_range(s, address, payload.n))
        return no(4);
    if (!writes(s, address / PLAIN_PAGE, device))
        return no(5);
    memcpy(memory + address, payload.at, payload.n);
    return yes(PLAIN_DONE, 0);
}

static struct plain_reply on_extend(struct plain_state *s, const struct plain_request *q, struct plain_bytes payload, const uint8_t *memory)
{
    struct plain_bytes content = payload;
    if (q->index >= PLAIN_PCRS)
        return no(10);
    if (q->source == PLAIN_PAYLOAD) {
        if (payload.n > PLAIN_PAGE)
            return no(4);
    } else {
        content = (struct plain_bytes){ memory, 0 };
        if (q->length != 0) {
            if (!is_range(s, q->address, q->length))
                return no(4);
            if (!is_own(s, s->mode - 1, q->address / PLAIN_PAGE))
                return no(5);
            content = (struct plain_bytes){ memory + q->address, q->length };
        }
    }
    extend(s->slots[s->mode - 1].pcrs[q->index], plain_sha1(content.at, content.n));
    return yes(PLAIN_DONE, 0);
}

static struct plain_reply on_pcr_read(const struct plain_state *s, size_t index, uint8_t *buffer, size_t room)
{
    if (index >= PLAIN_PCRS)
        return no(10);
    if (room < PLAIN_DIGEST)
        return no(9);
    memcpy(buffer, s->slots[s->mode - 1].pcrs[index], PLAIN_DIGEST);
    return yes(PLAIN_FILLED, PLAIN_DIGEST);
}

struct plain_reply plain_event(struct plain_state *s, const struct plain_request *q, struct plain_bytes payload, uint8_t *memory, size_t size, uint8_t *buffer, size_t room)
{
    if (!well_formed(s, size))
        return no(1);
    bool legacy = s->mode == 0;
    switch (q->kind) {
    case PLAIN_REGISTER: return legacy ? on_register(s, q->mark, payload, memory) : no(2);
    case PLAIN_UNREGISTER: return legacy ? on_unregister(s, q->mark, q->slot, memory) : no(2);
    case PLAIN_CALL: return legacy ? on_call(s, q, memory) : no(2);
    case PLAIN_RETURN: return legacy ? no(2) : on_return(s, memory);
    case PLAIN_JUMP: return on_jump(s, q->address, memory);
    case PLAIN_READ: return on_read(s, q->address, q->length, false, memory, buffer, room);
    case PLAIN_WRITE: return on_write(s, q->address, false, payload, memory);
    case PLAIN_DEVICE_READ: return on_read(s, q->address, q->length, true, memory, buffer, room);
    case PLAIN_DEVICE_WRITE: return on_write(s, q->address, true, payload, memory);
    case PLAIN_EXTEND: return legacy ? no(2) : on_extend(s, q, payload, memory);
    case PLAIN_PCR_READ: return legacy ? no(2) : on_pcr_read(s, q->index, buffer, room);
    }
    return no(2);
}

uint8_t plain_start(struct plain_state *s, size_t pages, size_t kept)
{
    memset(s, 0, sizeof *s);
    if (!sizes_right(pages, kept))
        return 4;
    s->pages = pages;
    s->kept = kept;
    memset(s->owner + pages - kept, MONITORS, kept);
    return 0;
}
