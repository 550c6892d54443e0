// The well-formedness test in plain C, by the algorithm of crates/wellformed: one loop reads each slot and paints what it says, then the table is compared with the owner table.
#include <string.h>
#include "wellformed.h"

static bool in_code(const struct fields *f, size_t page)
{
    for (size_t i = 0; i < f->r; i++) {
        const struct run *x = &f->runs[i];
        if (x->kind == 1 && x->first <= page && page < (size_t)x->first + x->count)
            return true;
    }
    return false;
}

static bool keeps(const struct fields *f)
{
    if (f->r < 2 || f->r > 4 || f->e < 1 || f->e > 8)
        return false;
    bool ok = true;
    size_t end = 0, held = 0, codes = 0, params = 0, param_pages = 0;
    for (size_t i = 0; i < f->r; i++) {
        const struct run *x = &f->runs[i];
        ok &= x->kind >= 1 && x->kind <= 4 && x->count >= 1 && end <= x->first;
        end = (size_t)x->first + x->count;
        ok &= end <= PAGES;
        held += x->count;
        codes += x->kind == 1;
        params += x->kind == 4;
        param_pages += x->kind == 4 ? x->count : 0;
    }
    if (!ok || held > 64 || codes == 0 || params != 1 || param_pages != 1)
        return false;
    size_t least = 0;
    for (size_t i = 0; i < f->e; i++) {
        const struct entry *x = &f->entries[i];
        if (x->input > 2048 || x->output > 2048 || x->address < least || !in_code(f, x->address / 4096))
            return false;
        least = (size_t)x->address + 1;
    }
    uint32_t bits = 0;
    for (size_t i = f->r; i < 4; i++)
        bits |= f->runs[i].kind | f->runs[i].count | f->runs[i].first;
    for (size_t i = f->e; i < 8; i++)
        bits |= f->entries[i].address | f->entries[i].input | f->entries[i].output;
    return bits == 0;
}

static bool slot_right(const struct slot *x, size_t top)
{
    const struct fields *f = &x->card.fields;
    if (x->card.registered) {
        if (!keeps(f))
            return false;
        const struct run *last = &f->runs[f->r - 1];
        return (size_t)last->first + last->count <= top;
    }
    uint32_t bits = 0;
    for (size_t i = 0; i < 4; i++)
        bits |= f->runs[i].kind | f->runs[i].count | f->runs[i].first;
    for (size_t i = 0; i < 8; i++)
        bits |= f->entries[i].address | f->entries[i].input | f->entries[i].output;
    const uint8_t *pcrs = (const uint8_t *)x->pcrs;
    uint8_t bytes = 0;
    for (size_t i = 0; i < sizeof x->pcrs; i++)
        bytes |= pcrs[i];
    return x->card.mark == 0 && f->r == 0 && f->e == 0 && bits == 0 && bytes == 0;
}

static bool slots_right(const struct state *s)
{
    uint8_t table[PAGES] = {0}, bad = 0;
    size_t top = s->pages - s->kept;
    memset(table + top, 255, s->kept);
    for (size_t k = 0; k < 8; k++) {
        if (!slot_right(&s->slots[k], top))
            return false;
        const struct fields *f = &s->slots[k].card.fields;
        for (size_t i = 0; i < f->r; i++)
            for (size_t p = 0; p < f->runs[i].count; p++)
                bad |= s->owner[f->runs[i].first + p] ^ (k + 1);
        for (size_t i = 0; i < f->r; i++)
            memset(table + f->runs[i].first, k + 1, f->runs[i].count);
    }
    return bad == 0 && memcmp(table, s->owner, PAGES) == 0;
}

static bool mode_right(const struct state *s)
{
    const struct running *r = &s->running;
    if (s->mode == 0)
        return r->slot == 0 && r->out == 0 && r->length == 0;
    size_t k = s->mode - 1;
    if (k >= 8 || r->slot != k || !s->slots[k].card.registered)
        return false;
    const struct fields *f = &s->slots[k].card.fields;
    bool some = false;
    for (size_t i = 0; i < f->e; i++)
        some |= f->entries[i].output == r->length;
    if (!some)
        return false;
    if (r->length == 0)
        return r->out == 0;
    return r->length <= 4096 && r->out % 4096 + r->length <= 4096 && r->out / 4096 < s->pages && s->owner[r->out / 4096] == 0;
}

bool plain_well_formed(struct state s, size_t length)
{
    if (s.pages < 2 || s.pages > PAGES || s.kept < 1 || s.kept >= s.pages)
        return false;
    return slots_right(&s) && mode_right(&s) && length == s.pages * 4096;
}
